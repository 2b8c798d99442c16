"""The arguments of tools/xslt-xml."""

import os
import re

from lib.messages.nearest import hint

USAGE_FAULT, READ_FAULT, WRITE_FAULT, NO_MEMORY, NOT_RUN = 1, 2, 5, 6, 125
TOP = os.path.dirname(os.path.dirname(os.path.dirname(os.path.realpath(__file__))))
# Options of the program that have a value.
VALUED = {"--budget", "--max-events", "--workers", "--grain", "--at", "--load"}
# Those that have none.
FLAGS = {"--check", "--stats", "--profile", "--stream"}
PARAMETER = re.compile(r"@?[^\W\d][\w.\-\u00b7]*=.*", re.DOTALL)
USAGE = """\
usage: tools/xslt-xml [-o FILE] [option]... SHEET.xsl SOURCE.xml [name=text]...
       tools/xslt-xml --outdir DIR [option]... SHEET.xsl SOURCE.xml... [name=text]...
       tools/xslt-xml --check [option]... SHEET.xsl
"""


class Usage(Exception):
    """Why the arguments are refused."""


class Options:
    """The options of this tool and of the program, the stylesheet, the sources, and the parameters."""

    def __init__(self, arguments):
        self.program = os.path.join(TOP, "xslt")
        self.output = self.outdir = None
        self.most_faults = "10"
        self.drop_doctype = self.is_raw = self.is_quiet = self.has_time = self.has_help = self.has_version = False
        self.has_warnings = self.has_hints = False
        self.passed_on, inputs = [], []
        self.read(iter(arguments), inputs)
        self.is_check = "--check" in self.passed_on
        if not re.fullmatch("[1-9][0-9]{0,3}", self.most_faults):
            raise Usage(f"--faults {self.most_faults}: that is a number from 1 to 9999")
        if not self.has_help and not self.has_version:
            self.sort(inputs)

    def read(self, arguments, inputs):
        """Reads the arguments one by one."""
        flags = {"--drop-doctype": "drop_doctype", "--raw": "is_raw", "--time": "has_time", "--quiet": "is_quiet"}
        flags.update({"--warn": "has_warnings", "--hints": "has_hints", "--help": "has_help", "-h": "has_help", "--version": "has_version"})
        values = {"--program": "program", "-o": "output", "--output": "output", "--outdir": "outdir", "--faults": "most_faults"}
        for argument in arguments:
            name, equals, value = argument.partition("=")
            if argument in flags:
                setattr(self, flags[argument], True)
            elif name in values and (equals or argument == name):
                value = value if equals else next(arguments, None)
                if not value:
                    raise Usage(f"{name} needs a value")
                setattr(self, values[name], value)
            elif argument.startswith("-o"):
                self.output = argument[2:]
            elif argument == "--":
                inputs.extend(arguments)
            elif argument.startswith("-") and argument != "-":
                if name not in VALUED | FLAGS:
                    raise Usage(f"option {name} is not known{hint(name, {*VALUED, *FLAGS, *flags, *values})}")
                value = next(arguments, None) if argument in VALUED else ""
                if value is None:
                    raise Usage(f"{name} needs a value")
                self.passed_on.extend([argument, value] if argument in VALUED else [argument])
            else:
                inputs.append(argument)

    def sort(self, inputs):
        """Finds the stylesheet, the sources and the parameters among the inputs."""
        if not inputs:
            raise Usage("there is no stylesheet")
        self.sheet, rest = inputs[0], inputs[1:]
        self.parameters = [each for each in rest[0 if self.outdir else 1 :] if PARAMETER.fullmatch(each)]
        self.sources = [each for each in rest if each not in self.parameters]
        if self.is_check and rest:
            raise Usage("--check takes a stylesheet alone")
        if not self.is_check and not self.sources:
            raise Usage("there is no source")
        if len(self.sources) > 1 and not self.outdir:
            raise Usage(f"what is {self.sources[1]}? Several sources need --outdir, a parameter is name=text")
        if self.output and (self.outdir or self.is_check):
            raise Usage("-o goes with one source, without --outdir and --check")
        if [self.sheet, *self.sources].count("-") > 1:
            raise Usage("standard input can be read once")
        if self.outdir and "-" in self.sources:
            raise Usage("standard input has no name for a file in --outdir")
