"""Runs the program in the folder of the lines, and reports what it says."""

import os
import signal
import subprocess

from lib import processes
from lib.messages import faults
from lib.messages.vocabulary import XSLT
from lib.options import NO_MEMORY, NOT_RUN, USAGE_FAULT
from lib.reporting import say
from lib.xml2pyx import escape

LONG = 5  # seconds of the processor: such a run is not repeated
MARK = "xslt-xml asks: "

def children_seconds():
    """The processor's seconds of all children that have ended."""
    times = os.times()
    return times.children_user + times.children_system


class Program:
    """The program, on one stylesheet."""

    def __init__(self, options, folder):
        self.options, self.folder = options, folder
        self.path = os.path.realpath(options.program)
        self.seconds = 0  # of the processor, of the last run

    def run(self, inputs, source, result):
        """Runs the program in the folder and passes on what it says except a fault: the status, and the fault."""
        command = [self.path, *self.options.passed_on, *inputs]
        try:
            program = processes.start(
                command, cwd=self.folder.path, stdout=result.target if result else subprocess.DEVNULL, stderr=subprocess.PIPE,
                pass_fds=source.ends if source else (),
                restore_signals=False,  # a pipe that nobody reads is a write fault of the program, not its end
            )
        finally:
            for each in (source, result):
                if each:
                    each.begin()
        fault, usage, begun = None, "", children_seconds()
        with program.stderr:
            for line in program.stderr:
                line = line.decode(errors="surrogateescape")
                fault = faults.read(line) or fault
                if line.startswith("usage: "):
                    usage = line
                elif not faults.read(line):
                    self.pass_on(line)
        status = processes.wait(program)
        self.seconds = children_seconds() - begun
        if source:
            source.finish()
        return self.status(status, usage), fault

    def status(self, status, usage):
        """The status of a run, with a report of an end that no line says, or of what is wrong with the arguments."""
        if status < 0:
            say(f"xslt-xml: the program {processes.how_ended(-status)}\n")
            return NO_MEMORY if status == -signal.SIGKILL else NOT_RUN
        if status == NO_MEMORY:
            say("xslt-xml: the program ran out of memory [6 NoMemory]\n")
        if status == USAGE_FAULT:
            from lib.messages import arguments  # most runs need none of it

            found = arguments.wrong(self.options)
            say("".join(f"xslt-xml: {each}\n" for each in found) or usage)
        return status

    def pass_on(self, line):
        """Passes on a line that is no fault: of a message its text, unless all is wanted as it is."""
        said = None if self.options.is_raw else faults.message_text(line)
        say(line if said is None else said + "\n")

    def report(self, fault, source):
        """Reports a fault, and those after it."""
        if not fault:
            return
        from lib.messages import reports

        if self.options.is_raw:
            reports.report_raw(self.folder, source, fault)
        elif source and fault.file == source.name:
            reports.report_source(source, fault)
        else:
            module, finding = reports.report_fault(self.folder, fault, lambda *found: self.ask_value(fault, source, *found))
            if finding and fault.number in faults.ELEMENTS:
                self.report_more(fault, module, finding)

    def report_more(self, fault, module, finding):
        """Removes what was reported and asks for the next fault, up to the last that is wanted."""
        from lib.messages import cures, reports

        curer, count, asked, most = cures.Curer(self.folder), 1, 1, int(self.options.most_faults)
        while fault and count < most and asked < 3 * most and curer.cure(module, finding):
            fault, asked = self.ask_again(curer), asked + 1
            if not fault:
                return
            module = self.folder.module(fault.file)
            finding = reports.find(list(self.folder.modules.values()), module, fault)
            if finding.element and curer.is_new(finding.element):
                reports.report(module, finding, fault.tag)
                count += 1

    def ask_again(self, curer):
        """The next static fault of the stylesheet as it is now, with the line that was its first, or None."""
        command = [self.path, "--check", self.folder.name(self.folder.sheet)]
        _, _, said = processes.run(command, cwd=self.folder.path, stdout=subprocess.DEVNULL, stderr=subprocess.PIPE)
        lines = said.decode(errors="surrogateescape").splitlines()
        fault = faults.read(lines[-1]) if lines else None
        module = self.folder.module(fault.file) if fault else None
        if not module or fault.number not in faults.ELEMENTS:
            return None
        return faults.Fault(fault.number, fault.name, fault.file, curer.original(module, fault.row))

    def ask_value(self, fault, source, module, finding):
        """The value of an expression just before a fault, as a message in one more run says it, or None where that is not clear."""
        element = finding.element
        if self.seconds > LONG or not element.is_instruction or not source:
            return None
        prefix = next(each for each, uri in element.spaces.items() if uri == XSLT)
        prefix += ":" if prefix else ""
        lines = [f"({prefix}message", f"({prefix}value-of", f"Aselect concat('{MARK}', {finding.question})"]
        lines += [f"){prefix}value-of", f"){prefix}message"]
        rows = [line for _, line in module.rows]
        rows[element.row - 1 : element.row - 1] = [f"{escape(line)}\n".encode() for line in lines]
        with module.with_lines(self.folder, rows):
            said = self.run_again(source)
        values = [text.removeprefix(MARK) for text in map(faults.message_text, said) if text and text.startswith(MARK)]
        last = faults.read(said[-1]) if said else None
        is_same = last and (last.number, last.file, last.row) == (fault.number, fault.file, element.row + len(lines))
        return values[-1] if values and is_same else None

    def run_again(self, source):
        """The lines of one more run."""
        again = source.again()
        command = [self.path, *self.options.passed_on, self.folder.name(self.folder.sheet), again.name, *self.options.parameters]
        program = processes.start(command, cwd=self.folder.path, stdout=subprocess.DEVNULL, stderr=subprocess.PIPE, pass_fds=again.ends)
        again.begin()
        said = program.stderr.read().decode(errors="surrogateescape").splitlines()
        processes.wait(program)
        again.finish()
        return said
