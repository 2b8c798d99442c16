"""Runs the program on XML, for a person at a shell: what tools/xslt-xml does."""

import contextlib
import errno
import os
import shutil
import subprocess
import tempfile

from lib import destinations, processes, results, sources, streams
from lib.messages import faults
from lib.modules import Folder
from lib.options import NO_MEMORY, NOT_RUN, READ_FAULT, TOP, USAGE, USAGE_FAULT, WRITE_FAULT, Options, Usage
from lib.processes import OutOfMemory
from lib.program import Program
from lib.progress import Clock, Progress
from lib.reporting import INPUT, errors, say, write_output

ENDINGS = {"text": ".txt", "html": ".html"}
STANDARD_INPUT = "standard input"


def main(arguments, help_text):
    """The status of a run with these arguments."""
    streams.take()
    processes.signals.watch()
    try:
        status = run(arguments, help_text)
    except processes.Ended as ended:
        return ended.status
    except (MemoryError, OutOfMemory) as fault:
        say(f"xslt-xml: {str(fault) or 'memory ran out'}\n")
        status = NO_MEMORY
    return WRITE_FAULT if errors.has_failed else status


def run(arguments, help_text):
    """Does what the arguments ask for: the status."""
    try:
        options = Options(arguments)
    except Usage as fault:
        say(f"xslt-xml: {fault}\n{USAGE}")
        return USAGE_FAULT
    if options.has_help:
        return print_all(help_text)
    if options.has_version:
        return print_all(f"xslt-xml of {version()}: XSLT 1.0, a proved processor; program {os.path.realpath(options.program)}\n")
    try:
        with folder_of_lines() as path, contextlib.closing(Shell(options, path)) as shell:
            return shell.run()
    except destinations.Refused as fault:
        say(f"xslt-xml: {fault}\n")
        return fault.status
    except OSError as fault:
        if fault.errno == errno.ENOMEM:
            raise MemoryError from fault
        say(f"xslt-xml: {fault.filename or 'a file'}: {fault.strerror}\n")
        return NOT_RUN


def print_all(text):
    """Writes a text to standard output: the status."""
    reason = write_output(text)
    if reason:
        say(f"xslt-xml: {reason}\n")
    return WRITE_FAULT if reason else 0


def version():
    """The commit that the tools are of, where git knows it or an installation has noted it."""
    noted = os.path.join(TOP, "version")
    if os.path.exists(noted):
        with open(noted, encoding="utf-8") as file:
            return file.read().strip()
    command = ["git", "-c", "safe.directory=*", "-C", TOP, "describe", "--always", "--dirty"]
    try:
        found = subprocess.run(command, capture_output=True, text=True, check=False)
    except OSError:
        return "an unknown version"
    return found.stdout.strip() or "an unknown version"


@contextlib.contextmanager
def folder_of_lines():
    """A folder that goes at the end, after all that may write to it has ended."""
    path = None
    try:
        with processes.signals.hold():
            path = tempfile.mkdtemp(prefix="xslt-xml-")
        yield path
    finally:
        with processes.signals.hold():
            processes.end_all()
            if path:
                shutil.rmtree(path, ignore_errors=True)


class Shell:
    """One stylesheet, and what is done with it."""

    def __init__(self, options, path):
        self.options = options
        self.outputs = [] if options.is_check or options.outdir else [destinations.destination(options.output)]
        self.folder = Folder(os.path.join(path, "lines"), options.drop_doctype)
        self.path = path
        self.program = Program(options, self.folder)
        self.progress = Progress(options)
        self.inputs = destinations.Inputs()
        os.mkdir(self.folder.path)

    def close(self):
        self.progress.stop()

    def run(self):
        """Checks the stylesheet, or transforms each source: the first status that is not 0."""
        clock = Clock()
        self.progress.begin("reading", self.options.sheet)
        self.sheet = self.keep(self.options.sheet)
        self.folder.add_sheet(self.sheet)
        self.warn(self.folder.output(self.sheet))
        clock.stop("stylesheet")
        if self.options.is_check:
            self.progress.begin("checking", self.sheet)
            status, fault = self.program.run([self.folder.name(self.sheet)], None, None)
            self.program.report(fault, None)
            self.hint(None, None)
            clock.stop("check")
            self.report_time(clock, self.sheet)
            return status
        self.find_inputs()
        self.find_outputs()
        return self.transform_all(clock)

    def warn(self, said):
        """Reports what the stylesheet asks of the result in vain."""
        if not self.options.is_raw and self.folder.asks_in_vain(said):
            from lib.messages import warnings  # most runs need none of it

            warnings.warn(self.folder, said)
        if self.options.has_warnings:
            from lib.messages import advice

            advice.warn(self.folder)

    def hint(self, path, source):
        """Reports traps that are no faults, where they are asked for."""
        if self.options.has_hints:
            from lib.messages import hints

            hints.give(self.folder, path, source)

    def keep(self, name):
        """The name of an input. What can be read but once, standard input or a pipe, is kept in a file."""
        is_file = name != "-" and (os.path.isfile(name) or os.path.isdir(name) or not os.path.exists(name))
        if is_file:
            return name
        kept = STANDARD_INPUT if name == "-" else name
        path = self.folder.paths[kept] = os.path.join(self.path, f"input{len(self.folder.paths)}")
        try:
            with open(INPUT if name == "-" else name, "rb", closefd=name != "-") as given, open(path, "wb") as made:
                shutil.copyfileobj(given, made)
        except OSError as fault:
            raise destinations.Refused(f"{kept}: {fault.strerror}", READ_FAULT) from None
        return kept

    def find_inputs(self):
        """Notes all that the run reads: the program, the stylesheet with its modules, the sources and documents."""
        for module in self.folder.modules.values():
            self.inputs.add(f"the stylesheet {module.xml}" if module.xml == self.sheet else f"the module {module.xml}", module.path)
        for source in self.options.sources:
            self.inputs.add(f"the source {source}", source)
        for each in self.options.parameters:
            name, _, path = each.partition("=")
            if name.startswith("@"):
                self.inputs.add(f"the document {path}", path)
        if "-" in (self.options.sheet, *self.options.sources):
            self.inputs.add(STANDARD_INPUT, INPUT)
        self.inputs.add("the program", self.program.path)

    def find_outputs(self):
        """Finds where the result of each source goes, before anything is run: no two go to one file, and none to an input."""
        if self.options.outdir:
            self.outputs = [destinations.destination(self.output_of(source)) for source in self.options.sources]
        used = set()
        for source, output in zip(self.options.sources, self.outputs):
            output.check_input(self.inputs)
            same = {output.place, destinations.file_at(output.place)} - {None}
            if output.is_replaced and used & same:
                raise destinations.Refused(f"{source}: another source is written to {output.name}; nothing was run", USAGE_FAULT)
            used |= same
        if self.options.outdir:
            try:
                os.makedirs(self.options.outdir, exist_ok=True)
            except OSError as fault:
                raise destinations.Refused(f"{self.options.outdir}: {fault.strerror}", WRITE_FAULT) from None
        for output in self.outputs:
            output.check_place()

    def output_of(self, source):
        """The file in --outdir that a source's result goes to."""
        stem = os.path.splitext(os.path.basename(source))[0]
        ending = ENDINGS.get(self.folder.output(self.sheet).get("method"), ".xml")
        return os.path.join(self.options.outdir, stem + ending)

    def transform_all(self, clock):
        first = 0
        for source, output in zip(self.options.sources, self.outputs):
            try:
                status, fault = self.transform(source, output, clock)
            except (MemoryError, OutOfMemory) as out:
                say(f"xslt-xml: {source}: {str(out) or 'memory ran out'}\n")
                status, fault = NO_MEMORY, None
            self.report_time(clock, STANDARD_INPUT if source == "-" else source)
            clock = Clock()
            first = first or status
            if fault and fault.number in (*faults.STATIC, READ_FAULT) and self.folder.module(fault.file):
                break  # no source is read with this stylesheet
            if status and len(self.options.sources) > 1:
                say(f"xslt-xml: {source}: status {status}\n")
        return first

    def transform(self, xml, output, clock):
        """Transforms one source: the status, and the fault that was reported."""
        name = self.keep(xml)
        path = os.path.join(self.folder.path, "source.pyx")
        self.progress.begin("reading", name)
        source = sources.open_source(name, self.folder.paths.get(name, name), self.options.drop_doctype, path)
        said = self.folder.output(self.sheet)
        with results.open_result(said, output) as result:
            self.progress.watch(source, result)
            inputs = [self.folder.name(self.sheet), source.name, *self.options.parameters]
            status, fault = self.program.run(inputs, source, result)
            clock.stop("source and program")
            if fault and fault.file == source.name and source.reason:
                status = READ_FAULT
            self.program.report(fault, source)
            self.hint(source.path, source.xml)
            status = self.write(result, output, status)
            clock.stop("result")
        return status, fault

    def write(self, result, output, status):
        """Writes a result that is whole: the status."""
        if errors.has_failed:
            return WRITE_FAULT  # as the program does: no result after a line that could not be written
        reason = result.finish() if status in (0, WRITE_FAULT) else ""
        if reason:
            reason = f"the result, {reason}"
        elif status == 0:
            self.progress.begin("writing", output.name)
            reason = output.write(result, self.inputs)
        elif status == WRITE_FAULT:
            reason = f"the result, held in {result.folder}, could not be written"
        if reason:
            say(f"xslt-xml: {reason}\n")
            return WRITE_FAULT
        return status

    def report_time(self, clock, name):
        if self.options.has_time:
            clock.report(name)
