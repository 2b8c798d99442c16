"""Where results go: to a file that is replaced whole or not at all, or through a descriptor, a device or a pipe.

No input is ever replaced.
"""

import contextlib
import os
import stat
import tempfile

from lib.processes import signals
from lib.reporting import OUTPUT, Unbuffered


class Refused(Exception):
    """Why nothing is run, and the status."""

    def __init__(self, reason, status):
        super().__init__(reason)
        self.status = status


class Inputs:
    """The files that a run reads, by what they are and not by their names: links lead to the same file."""

    def __init__(self):
        self.names = {}

    def add(self, name, place):
        """Adds a path or a descriptor, if a file is there."""
        found = file_at(place)
        if found:
            self.names.setdefault(found, name)

    def find(self, place):
        """The name of the input that a path or a descriptor is, or None."""
        return self.names.get(file_at(place))


def file_at(place):
    """What a regular file is known by, however it is named, or None."""
    with contextlib.suppress(OSError, ValueError):
        found = os.stat(place)
        return (found.st_dev, found.st_ino) if stat.S_ISREG(found.st_mode) else None
    return None


def descriptor_of(path):
    """The number of the descriptor that a path such as /dev/stdout or /dev/fd/3 is, or None."""
    own = f"/proc/{os.getpid()}/fd", "/dev/fd"
    for _ in range(40):
        folder, name = os.path.split(path)
        if name.isdecimal() and os.path.realpath(folder) in own:
            return int(name)
        if not os.path.islink(path):
            return None
        path = os.path.join(folder, os.readlink(path))
    return None


def destination(path):
    """What a path names: standard output where there is none."""
    if path in (None, "-"):
        return Stream("standard output", OUTPUT)
    number = descriptor_of(path)
    if number is not None:
        return Stream(path, number)
    if os.path.isdir(path):
        raise Refused(f"{path} is a folder", 5)
    return Device(path) if os.path.exists(path) and not os.path.isfile(path) else File(path)


def hold():
    """A file without a name for a result, and its folder."""
    return tempfile.TemporaryFile(), tempfile.gettempdir()


class Stream:
    """A descriptor, which is written to where it stands."""

    is_replaced = False

    def __init__(self, name, number):
        self.name = name
        try:
            self.place = os.dup(number)
        except OSError as fault:
            raise Refused(f"{name}: {fault.strerror}", 5) from None

    def hold(self):
        """A file without a name for a result, and its folder."""
        return hold()

    def check_place(self):
        """Refuses what can't be written, before anything is run."""

    def check_input(self, inputs):
        """Refuses what is an input."""
        found = inputs.find(self.place)
        if found:
            raise Refused(f"{self.name} is {found}, which the run reads; nothing was run", 1)

    def write(self, result, inputs):
        """Writes a result: why that failed, or nothing."""
        try:
            self.copy(result, inputs)
            return ""
        except Refused as fault:
            return str(fault)
        except OSError as fault:
            return f"{self.name}: {fault.strerror}"

    def copy(self, result, _inputs):
        with Unbuffered(self.place, "wb", closefd=False) as out:
            result.copy(out)


class Device(Stream):
    """What is neither a file nor a descriptor: a device, a terminal, a pipe with a name."""

    def __init__(self, path):
        self.name = self.place = path

    def copy(self, result, _inputs):
        with Unbuffered(os.open(self.place, os.O_WRONLY), "wb") as out:
            result.copy(out)


class File(Stream):
    """A file, which a whole result replaces."""

    is_replaced = True

    def __init__(self, path):
        self.name, self.place = path, os.path.realpath(path)
        self.folder = os.path.dirname(self.place)

    def check_place(self):
        """Refuses what can't be written, before anything is run."""
        if not os.path.isdir(self.folder):
            raise Refused(f"{self.name}: there is no folder {self.folder}", 5)
        if not os.access(self.folder, os.W_OK | os.X_OK):
            raise Refused(f"{self.name}: the folder {self.folder} can't be written", 5)
        if os.path.exists(self.place) and not os.access(self.place, os.W_OK):
            raise Refused(f"{self.name}: Permission denied", 5)

    def hold(self):
        """A file in the folder of the output, where it can be given its name when it is whole."""
        if hasattr(os, "O_TMPFILE"):
            with contextlib.suppress(OSError):
                return os.fdopen(os.open(self.folder, os.O_TMPFILE | os.O_RDWR, 0o600), "w+b"), self.folder
        return super().hold()

    def copy(self, result, inputs):
        if not self.take(result.held, inputs):
            with self.replace(inputs) as out:
                result.copy(out)

    def take(self, held, inputs):
        """Gives a held file the output's name: whether that could be done."""
        made = os.path.join(self.folder, f".xslt-xml-{os.getpid()}")
        with signals.hold():
            try:
                os.fchmod(held.fileno(), self.mode())
                os.link(f"/proc/self/fd/{held.fileno()}", made, follow_symlinks=True)
            except OSError:
                return False
            return self.rename(made, inputs)

    @contextlib.contextmanager
    def replace(self, inputs):
        """A file to write to, which gets the output's name when all went well."""
        number, made = None, None
        try:
            with signals.hold():
                number, made = tempfile.mkstemp(dir=self.folder, prefix=".xslt-xml-")
            with Unbuffered(number, "wb") as out:
                yield out
                os.fchmod(number, self.mode())
            with signals.hold():
                whole, made = made, None
                self.rename(whole, inputs)
        finally:
            if made:
                os.unlink(made)

    def rename(self, made, inputs):
        """Gives a made file the output's name; it goes where that fails."""
        try:
            self.check_input(inputs)  # what the name is may have changed meanwhile
            os.replace(made, self.place)
        except BaseException:
            os.unlink(made)
            raise
        return True

    def mode(self):
        """The permissions of the file that is there, or those that a new one gets."""
        if os.path.exists(self.place):
            return os.stat(self.place).st_mode & 0o7777
        mask = os.umask(0)
        os.umask(mask)
        return 0o666 & ~mask
