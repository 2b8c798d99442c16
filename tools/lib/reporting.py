"""The standard streams of a tool, each of which may be full or closed: that is a status, and no traceback."""

import contextlib
import io
import os
import select

INPUT, OUTPUT, ERRORS = 0, 1, 2


class Unbuffered(io.FileIO):
    """A file that has what is written to it at once and whole, so that nothing is left for the end of the tool."""

    def write(self, data):
        rest = memoryview(data).cast("B")
        while rest:
            count = super().write(rest)
            if count is None:  # a terminal that another program has made to refuse what it has no room for
                select.select([], [self], [])
            rest = rest[count or 0 :]
        return len(data)


def write_output(text):
    """Writes a text to standard output: why that failed, or nothing."""
    try:
        with Unbuffered(OUTPUT, "wb", closefd=False) as out:
            out.write(text.encode(errors="surrogateescape"))
    except OSError as fault:
        return f"standard output: {fault.strerror}"
    return ""


class Errors:
    """Standard error: reports, and below them at a terminal a line that shows how far a run is."""

    def __init__(self):
        self.lock = contextlib.nullcontext()  # of threads, where there are several
        self.is_shown = False  # the line
        self.has_failed = False  # a write of a report

    def say(self, text):
        """Writes a report. Names of files are written as they are."""
        with self.lock:
            self.clear()
            try:
                with Unbuffered(ERRORS, "wb", closefd=False) as out:
                    out.write(text.encode(errors="surrogateescape"))
            except OSError:
                self.has_failed = True

    def show(self, line):
        """Shows a line in the place of the one before."""
        with self.lock, contextlib.suppress(OSError):
            os.write(ERRORS, f"\r{line}\x1b[K".encode(errors="surrogateescape"))
            self.is_shown = True

    def clear(self):
        """Takes the line away."""
        with self.lock, contextlib.suppress(OSError):
            if self.is_shown:
                os.write(ERRORS, b"\r\x1b[K")
            self.is_shown = False


errors = Errors()
say = errors.say
