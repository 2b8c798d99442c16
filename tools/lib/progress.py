"""How long the parts of a run take, and at a terminal how far it is."""

import contextlib
import os
import time

from lib.reporting import ERRORS, errors, say

PATIENCE = 2  # seconds before anything is shown
PAUSE = 0.25  # between two looks
UNITS = {"kB": 1_000, "MB": 1_000_000}
WIDTH = 80  # of a terminal that does not say it


class Clock:
    """The seconds that parts of the work take."""

    def __init__(self):
        self.last, self.parts = time.perf_counter(), []

    def stop(self, name):
        now = time.perf_counter()
        self.parts.append((name, now - self.last))
        self.last = now

    def report(self, name):
        parts = ", ".join(f"{part} {seconds:.3f} s" for part, seconds in self.parts)
        total = sum(seconds for _, seconds in self.parts)
        say(f"xslt-xml: {name}: {parts}; {total:.3f} s in all\n")


def size_of(count):
    """A number of bytes as people write it."""
    unit = next((each for each in ("MB", "kB") if count >= UNITS[each]), "bytes")
    return f"{count:,} bytes" if unit == "bytes" else f"{count / UNITS[unit]:,.1f} {unit}"


class Progress:
    """One line at a terminal, from the third second on: what is at work, the bytes read of all, the bytes written."""

    def __init__(self, options):
        self.work = self.name = ""
        self.source = self.result = self.thread = None
        with contextlib.suppress(OSError):
            if not options.is_quiet and os.isatty(ERRORS):
                self.start()

    def start(self):
        """Begins to look, in a thread of its own."""
        import threading  # where there is no terminal none is needed

        errors.lock = threading.RLock()
        self.end = threading.Event()
        self.thread = threading.Thread(target=self.look, daemon=True)
        self.thread.start()

    def begin(self, work, name):
        """What is done from now on."""
        self.work, self.name = work, name

    def watch(self, source, result):
        """What is read from now on, and what it becomes."""
        self.source, self.result = source, result

    def look(self):
        wait = PATIENCE
        while not self.end.wait(wait):
            wait = PAUSE
            with contextlib.suppress(OSError, ValueError):  # what has just been closed
                errors.show(self.line())

    def line(self):
        """What is shown, no wider than the terminal."""
        parts, work = [], self.work
        if self.source and work == "reading":
            place, size = self.source.progress()
            work = work if place < size else "transforming"
            parts.append(f"{size_of(place)} of {size_of(size)} read")
        if self.result:
            parts.append(f"{size_of(os.fstat(self.result.held.fileno()).st_size)} written")
        text = f"xslt-xml: {work} {self.name}" + (": " if parts else "") + ", ".join(parts)
        width = os.get_terminal_size(ERRORS).columns or WIDTH
        return text[: width - 1]

    def stop(self):
        """Ends, and takes the line away."""
        if self.thread:
            self.end.set()
            self.thread.join()
        errors.clear()
