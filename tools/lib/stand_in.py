#!/usr/bin/env python3
"""A program in the place of xslt, for the tests of tools/xslt-xml: it finds faults by single texts.

It reads a stylesheet's lines with the modules that they mention, refuses what has one of
the texts of RULES, and gives the source's lines as the result. A parameter a=N is the status, b=TEXT a text after them,
c=SECONDS how long it waits before them, d=N the signal that ends it.
"""

import os
import sys
import time

# Faults of a line of an element, in the order in which they count.
RULES = [
    ("Aselect item[@sku='a'", 20, "Syntax"),
    ("Aselect upper-case(.)", 21, "UnknownFunction"),
    ("Aseelct a", 34, "MissingAttribute"),
    ("(x:apply-template\n", 37, "Misplaced"),
    ("$no", 39, "UnknownVariable"),
    ("Aname fooo", 43, "UnknownTemplate"),
    ("Aselect format-number(", 21, "UnknownFunction"),
    ("(x:decimal-format", 33, "Unsupported"),
    ("Aselect 0.5", 23, "BadLiteral"),
    ("stray", 37, "Misplaced"),
]
# Faults of a run.
RUN_RULES = [
    ("Aselect 7 div 2", 51, "Fraction"),
    ("Adata-type number", 51, "Fraction"),
    ("Aselect $tree/a", 53, "NotNodes"),
    ("Aselect count('a')", 53, "NotNodes"),
    ("key(by-sku", 54, "NoKey"),
    ("key('by-sk'", 54, "NoKey"),
    ("key($k", 54, "NoKey"),
    ("Aname {$k}", 60, "BadResultName"),
    ("Aname xmlns", 60, "BadResultName"),
    ("Aname p:a", 61, "UnboundResultPrefix"),
]
ASKED = "Aselect concat('xslt-xml asks: '"
ENDLESS = "Aname endless"


class Program:
    def __init__(self, arguments):
        self.arguments, self.read, self.call, self.ends = arguments, [], None, []
        self.inputs = [each for each in arguments if not each.startswith("--") and not each.isdigit()]

    def run(self):
        print("message", *self.arguments, file=sys.stderr)
        self.module(self.inputs[0], [self.inputs[0]])
        if "--check" in self.arguments:
            return 0
        lines = lines_of(self.inputs[1])
        if lines[-1] or not lines[-2:-1] or lines[-2][:1] not in (")", "C", "?"):
            refuse(3, 12, "Truncated", self.inputs[1], len(lines))
        if self.ends:
            refuse(4, *self.ends[0])
        if self.call:
            refuse(4, 55, "TooDeep", *self.call)
        said = dict(each.split("=", 1) for each in self.inputs[2:])
        time.sleep(float(said.get("c", 0)))
        if "d" in said:
            os.kill(os.getpid(), int(said["d"]))
        lines[-1:] = [f"-{said['b']}", ""] if "b" in said else [""]
        sys.stdout.buffer.write("\n".join(lines).encode())
        return int(said.get("a", 0))

    def module(self, name, above):
        self.read.append(name)
        start, found = 0, []
        for number, line in enumerate(lines_of(name), 1):
            start = number if line.startswith("(") else start
            if line.startswith(ASKED):
                print("message xslt-xml asks: 1a", file=sys.stderr)
            self.ends += [(*rule[1:], name, start if "data-type" not in rule[0] else start - 3) for rule in RUN_RULES if rule[0] in line]
            found += [(start, rule[1:]) for rule in RULES if rule[0] in line + "\n"]
            self.call = (name, start) if line == ENDLESS else self.call
            if line.startswith("Ahref "):
                self.mention(line[6:], name, start, above)
        if found:
            refuse(3, *min(found)[1], name, min(found)[0])

    def mention(self, other, name, start, above):
        if other in above:
            refuse(3, 30, "CircularModule", name, start)
        if len(self.read) == 256:
            refuse(3, 31, "TooManyModules", name, start)
        self.module(other, above + [other])


def refuse(status, *fault):
    print("fault", *fault, file=sys.stderr)
    sys.exit(status)


def lines_of(name):
    try:
        with open(name, encoding="utf-8", errors="replace", newline="") as file:  # its end may be half a character
            return file.read().split("\n")
    except OSError:
        refuse(2, 70, "ReadFault", name, 0)


if __name__ == "__main__":
    sys.exit(Program(sys.argv[1:]).run())
