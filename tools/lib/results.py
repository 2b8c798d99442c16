"""The result of a run, as text, or as XML or HTML in the form that the stylesheet asks for.

A result is held in a file without a name until it is whole and the program's status is known. It lies where the output will,
so that the file itself can become the output.
Where the converter in C can be had it runs beside the program and reads its lines from a pipe.
"""

import contextlib
import io
import os
import subprocess

from lib import destinations, encoder, native, pipes, processes, settings

PART = 1 << 18


def open_result(said, destination=None):
    """What becomes of the program's output where the outputs of the stylesheet say this, and it goes to this destination."""
    if said.get("method") == "text":
        return TextResult(said.get("encoding", "UTF-8"), destination)
    said = settings.usable(said)
    program = native.program("pyx2xml")
    return PipedResult(program, said, destination) if program else LinesResult(said, destination)


class Result:
    """What the program writes, and a converter beside it."""

    def __init__(self, destination=None):
        self.hold = destination.hold if destination else destinations.hold
        self.held, self.folder = self.hold()
        self.target = self.held.fileno()  # for the program

    def __enter__(self):
        return self

    def __exit__(self, *_):
        self.held.close()

    def begin(self):
        """The program has begun."""

    def finish(self):
        """The program has ended: why the result can't be written, or nothing."""
        return ""

    def replace(self):
        """A file in the place of what was held, which is read and then closed."""
        lines = self.held
        self.held, self.folder = self.hold()
        lines.seek(0)
        return lines

    def copy(self, out):
        """Writes the result, which may be long: by the system where it can."""
        out.flush()
        begin, end = 0, os.fstat(self.held.fileno()).st_size
        with contextlib.suppress(OSError):  # what can't be written is reported below
            while begin < end and (sent := os.sendfile(out.fileno(), self.held.fileno(), begin, end - begin)):
                begin += sent
        self.held.seek(begin)
        buffer = memoryview(bytearray(min(PART, end - begin)))
        while begin < end:
            part = buffer[: self.held.readinto(buffer[: end - begin])]
            out.write(part)
            begin += len(part)


class TextResult(Result):
    """A result of text, in an encoding (XSLT 1.0, 16.3)."""

    def __init__(self, encoding, destination=None):
        super().__init__(destination)
        self.encoding = encoding

    def finish(self):
        if self.encoding.upper() == "UTF-8" or not encoder.is_known(self.encoding):
            return ""
        to = encoder.Encoder(self.encoding)
        with io.TextIOWrapper(self.replace(), "utf-8", "replace", newline="\n") as text:
            self.held.write(to.encode(to.begin()))
            for number, line in enumerate(text, 1):
                if not to.holds(line):
                    return f"line {number}: {encoder.NOT_ENCODED}"
                self.held.write(to.encode(line))
        self.held.flush()
        return ""


class LinesResult(Result):
    """A result whose lines are converted after the program has ended."""

    def __init__(self, said, destination=None):
        super().__init__(destination)
        self.said = said

    def finish(self):
        from lib import pyx2xml

        with self.replace() as lines:
            try:
                pyx2xml.Converter(self.held, True, self.said).convert(lines)
            except pyx2xml.Refused as fault:
                return f"line {fault}"
        self.held.flush()
        return ""


class PipedResult(Result):
    """A result whose lines go by a pipe to a converter that runs beside the program."""

    def __init__(self, program, said, destination=None):
        super().__init__(destination)
        read_end, self.target = os.pipe()
        pipes.widen(self.target)
        command = [program, "--result", *settings.Settings(said).arguments()]
        self.converter = processes.start(command, stdin=read_end, stdout=self.held, stderr=subprocess.PIPE)
        os.close(read_end)

    def __exit__(self, *_):
        self.begin()
        self.converter.communicate()
        processes.wait(self.converter)
        super().__exit__()

    def begin(self):
        """The pipe is the program's alone, so that the converter notices its end."""
        if self.target is not None:
            os.close(self.target)
        self.target = None

    def finish(self):
        said = self.converter.stderr.read().decode(errors="replace")
        status = processes.wait(self.converter)
        processes.check_end("the converter to XML", status, said.rstrip("\n"))
        if status < 0:
            return f"the converter {processes.how_ended(-status)}"
        if status:
            reason = said.removeprefix("pyx2xml: ").rstrip("\n")
            reason = reason.replace("standard output:", f"held in {self.folder}:", 1)
            return reason.replace("standard input:", "line ", 1)
        return ""
