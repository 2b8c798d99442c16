"""The lines of a source, for the program to read.

Where the converter in C can be had it runs beside the program and hands over its lines by
a pipe; else the lines are written to a file first.
"""

import itertools
import os
import re
import signal
import subprocess
import tempfile
from array import array

from lib import native, pipes, processes, xml2pyx


def open_source(xml, path, drop_doctype, lines):
    """A source of a name and a path whose lines come by a pipe, or from a file that is to be written."""
    program = native.program("xml2pyx") if os.path.isdir("/dev/fd") else None
    try:
        if program:
            return PipedSource(xml, path, drop_doctype, program)
        return FileSource(xml, path, drop_doctype, lines)
    except OSError as fault:
        return MissingSource(xml, path, lines, fault.strerror)


class MissingSource:
    """A source that can't be opened: the program finds no file of this name."""

    def __init__(self, xml, path, lines, reason):
        self.xml, self.path, self.reason = xml, path, reason
        self.name = os.path.basename(lines)  # for the program
        self.ends = ()  # of pipes, for the program

    def again(self):
        """The same source once more."""
        return self

    def begin(self):
        """The program has begun to read."""

    def finish(self):
        """The program has ended."""

    def place(self, row):
        """The line of XML that a PYX line comes from."""
        return row

    def progress(self):
        """The bytes that were read, and all."""
        return 0, 0


class FileSource(MissingSource):
    """A source whose lines were written to a file; of one that is no XML there is none."""

    def __init__(self, xml, path, drop_doctype, lines):
        super().__init__(xml, path, lines, "")
        self.places = array("Q")
        with open(path, "rb") as source, open(lines, "wb") as made:
            try:
                xml2pyx.Converter(made, drop_doctype, self.places).convert(source)
            except xml2pyx.Refused as fault:
                self.reason = str(fault)
        if self.reason:
            os.remove(lines)

    def progress(self):
        size = os.path.getsize(self.path)
        return size, size

    def place(self, row):
        return self.places[row - 1] if 0 < row <= len(self.places) else row


class PipedSource(MissingSource):
    """A source whose lines come by a pipe from a converter that runs beside the program."""

    def __init__(self, xml, path, drop_doctype, program):
        super().__init__(xml, path, "", "")
        self.program = program
        self.options = ["--drop-doctype"] if drop_doctype else []
        self.complaint = tempfile.TemporaryFile()
        with open(path, "rb") as source:
            read_end, write_end = os.pipe()
            pipes.widen(write_end)
            command = [program, *self.options]
            self.converter = processes.start(command, stdin=source, stdout=write_end, stderr=self.complaint)
            os.close(write_end)
        self.name, self.ends = f"/dev/fd/{read_end}", (read_end,)

    def again(self):
        return PipedSource(self.xml, self.path, bool(self.options), self.program)

    def begin(self):
        """The pipe is the program's alone, so that the converter notices its end."""
        os.close(self.ends[0])

    def finish(self):
        """Finds out why the document is refused. That the program did not read to the end is no reason."""
        status = processes.wait(self.converter)
        self.complaint.seek(0)
        said = self.complaint.read().decode(errors="surrogateescape").rstrip("\n")
        self.complaint.close()
        processes.check_end("the converter to PYX lines", status, said)
        found = re.fullmatch(r"xml2pyx: standard input: ?(.*)", said, re.DOTALL)
        self.reason = found[1] if found else ""
        if status < 0 and status != -signal.SIGPIPE:
            self.reason = f"the converter {processes.how_ended(-status)}"

    def progress(self):
        size = os.path.getsize(self.path)
        try:
            with open(f"/proc/{self.converter.pid}/fdinfo/0", encoding="ascii") as facts:
                return int(facts.readline().split()[1]), size
        except OSError:
            return size, size  # it has ended

    def place(self, row):
        """Reads the document once more, for its table of lines."""
        with tempfile.TemporaryDirectory(prefix="xslt-xml-") as folder, open(self.path, "rb") as source:
            table = os.path.join(folder, "table")
            command = [self.program, *self.options, "--lines", table]
            if processes.run(command, stdin=source, stdout=subprocess.DEVNULL)[0]:
                return row
            with open(table, "rb") as places:
                return int(next(itertools.islice(places, row - 1, None), row))
