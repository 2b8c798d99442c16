"""The faults that the program reports, by their lines `fault NUMBER NAME FILE LINE`."""

import re
from collections import namedtuple

LINE = re.compile(r"fault (\d+) (\w+) (\S+) (\d+)\n?")
ESCAPE = re.compile(r"\\(.)")
MEANT = {"n": "\n", "t": "\t", "r": "\r", "\\": "\\"}
STATIC = range(20, 47)  # of a stylesheet, before any source is read
ELEMENTS = (*range(20, 26), *range(32, 47))  # of single elements
READ_FAULT = 70

# What is wrong, where nothing more can be found out.
PHRASES = {
    11: "too many bytes or nodes",
    20: "no expression, pattern or value template",
    21: "an unknown function",
    22: "a wrong number of arguments",
    23: "a number that is no whole number, or past the limit",
    24: "brackets or minus signs nest more than 64 deep",
    25: "no pattern",
    30: "the module is a part of itself",
    31: "more than 256 modules",
    32: "no stylesheet: the outer element has to be xsl:stylesheet or xsl:transform, or have xsl:version",
    33: "not supported",
    34: "an attribute is missing",
    35: "an attribute that the element may not have",
    36: "a value that the attribute may not have",
    37: "an element or a text where none may be",
    38: "a prefix that is not bound",
    39: "a variable that is not in scope",
    40: "a local variable hides another one",
    41: "a global variable of this name is there already",
    42: "a template of this name is there already",
    43: "no template has this name",
    44: "an attribute set uses itself",
    45: "not allowed here",
    46: "elements nest more than 256 deep",
    50: "the budget of ticks is spent",
    51: "a number that is no whole number",
    52: "a number past 9,007,199,254,740,991, or a division by 0",
    53: "a value that is no node-set, where one is needed",
    54: "no key has this name",
    55: "templates nest more than 16,384 deep",
    56: "no template rule is current here",
    57: "the message ends the run",
    58: "an extension element that is not known, without xsl:fallback",
    59: "a global variable needs its own value",
    60: "a name that the result can't have",
    61: "a prefix of a name of the result is not bound",
    62: "a value that the attribute may not have",
    63: "more events than --max-events",
    70: "can't be read",
}


class Fault(namedtuple("Fault", "number name file row")):
    """A fault's number and name, and the file and the line, of PYX, where it is."""

    @property
    def tag(self):
        return f"[{self.number} {self.name}]"

    @property
    def phrase(self):
        """What is wrong; of a document's lines their own fault's name says it."""
        return PHRASES.get(self.number, self.name)


def read(line):
    """The fault that a line of the program's reports, or None."""
    found = LINE.fullmatch(line)
    return Fault(int(found[1]), found[2], found[3], int(found[4])) if found else None


def message_text(line):
    """What a line `message TEXT` says, or None."""
    if not line.startswith("message "):
        return None
    return ESCAPE.sub(lambda found: MEANT.get(found[1], found[0]), line[8:].removesuffix("\n"))
