"""Writes PYX lines, the form that xslt reads and writes, as an XML document.

A convenience outside the proved product: nothing here is proved.

What is written is UTF-8 without a declaration, and any XML parser reads the same
elements, declarations, attributes, texts, comments and processing instructions
from it: nothing is indented, and what a parser would change is written as a
character reference. Only the first white space of an instruction is left out, since XML
takes it for what separates the target. With --fragment the lines need not have a single top element:
texts and any number of elements may be at the top, as in a result that is a
piece of a document.

With --result the lines are the result of a stylesheet, and the other options say what its
xsl:output says (XSLT 1.0, 16), each with the name of an attribute; any of them implies
--result. --method is xml or html, and without it html is what begins with that element;
--indent, --omit-xml-declaration and --standalone are yes or no; --encoding is UTF-8, UTF-16,
US-ASCII or one of a byte for each character; --version chooses a document type of HTML;
--cdata-section-elements has names {URI}LOCAL or LOCAL between spaces. Where the
Recommendation leaves a choice the bytes are those that xsltproc writes.

Malformed lines get one line on standard error, FILE:LINE with the fault's name, and
status 1; so does what no XML document can hold (most control characters, `--` in a
comment, and such). What was written until then lacks its last byte, so that nothing takes
it for a document; with --fragment nothing is written before all lines were read.

Where there is a C compiler, tools/c/pyx2xml.c does the work; else, or with
XSLT_CONVERTERS=python in the environment, this module does it, a hundred times more slowly,
and writes nothing at all where lines are refused.
"""

import os
import re
import shutil
import sys
import tempfile

from lib import native, settings, streams
from lib.declarations import declared
from lib.encoder import NOT_ENCODED
from lib.serializer import Serializer
from lib.target import NotEncoded, Target

IN_MEMORY = 1 << 24
FLUSH = 1 << 12
XML = "http://www.w3.org/XML/1998/namespace"
XMLNS = "http://www.w3.org/2000/xmlns/"
SPACE = " \t\r\n"

# Names of XML 1.0, fifth edition, without the colon.
FIRST = (
    "A-Z_a-z\u00c0-\u00d6\u00d8-\u00f6\u00f8-\u02ff\u0370-\u037d\u037f-\u1fff\u200c-\u200d"
    "\u2070-\u218f\u2c00-\u2fef\u3001-\ud7ff\uf900-\ufdcf\ufdf0-\ufffd\U00010000-\U000effff"
)
PART = f"[{FIRST}][{FIRST}\\-.0-9\u00b7\u0300-\u036f\u203f-\u2040]*"
NCNAME = re.compile(PART)
QNAME = re.compile(f"(?:({PART}):)?({PART})")
ESCAPE = re.compile(r"\\(.?)", re.DOTALL)
ESCAPES = {"n": "\n", "t": "\t", "r": "\r", "\\": "\\"}
FORBIDDEN = re.compile("[\x00-\x08\x0b\x0c\x0e-\x1f\ufffe\uffff]")


class Refused(Exception):
    """Which line is refused and why: its number, the reason."""

    def __str__(self):
        return "{}: {}".format(*self.args)


def unescape(number, text):
    def meant(found):
        if found[1] not in ESCAPES:
            raise Refused(number, "BadEscape: a backslash without n, t, r or a backslash after it")
        return ESCAPES[found[1]]

    return ESCAPE.sub(meant, text) if "\\" in text else text


def allowed(number, text):
    if FORBIDDEN.search(text):
        raise Refused(number, "XML has no such character")
    return text


def bad_binding(prefix, uri):
    return (
        (prefix != "" and uri == "")
        or prefix == "xmlns"
        or (prefix == "xml") != (uri == XML)
        or uri == XMLNS
    )


class Converter:
    """Reads lines one by one and passes the parts that they represent on to a target: of a result, with settings, a serializer."""

    def __init__(self, out, fragment, said=None):
        self.out = out
        self.fragment = fragment or said is not None
        self.target = Target() if said is None else Serializer(said)
        self.open = []  # the open elements: name, and the bindings outside
        self.bound = {"xml": XML}
        self.start = None  # a start whose attributes are still being read: line and name
        self.attributes = []  # its `A` lines so far: line, name, value
        self.seen_top = False

    def line(self, number, raw):
        try:
            self.read_line(number, raw)
        except NotEncoded:
            raise Refused(number, NOT_ENCODED) from None

    def read_line(self, number, raw):
        """Reads a line and passes on its part."""
        try:
            kind, name, text = self.read(number, raw)
        except Refused:
            if self.start:
                self.write_start(False)  # a fault of an earlier line comes first
            raise
        empty = kind == ")" and self.start is not None
        if self.start and kind != "A":
            self.write_start(empty)
        if kind == "(":
            if not self.open and self.seen_top and not self.fragment:
                raise Refused(number, "Unbalanced: a second top element")
            if not QNAME.fullmatch(name):
                raise Refused(number, "BadName: " + ascii(name))
            self.seen_top = True
            self.start = (number, name)
            self.target.start(name, not self.open)
        elif kind == "A":
            self.attributes.append((number, name, text))
        elif kind == ")":
            if not self.open or self.open[-1][0] != name:
                raise Refused(number, "Unbalanced: closes no open element of this name")
            self.bound = self.open.pop()[1]
            self.target.end(name, empty)
        elif kind == "-":
            self.text(number, text)
        elif kind == "C":
            self.comment(number, text)
        elif number != 1 or name.lower() != "xml":
            self.instruction(number, name, text)

    def read(self, number, raw):
        """One line as its kind, name and text; of what stands before it, only a start counts."""
        body = raw[:-1] if raw.endswith(b"\n") else raw
        try:
            body = body.decode()
        except UnicodeDecodeError:
            raise Refused(number, "BadUtf8: the line is not UTF-8") from None
        kind, name, text = body[:1], body[1:], ""
        if kind not in ("(", "A", "-", ")", "?", "C"):
            raise Refused(number, "BadLine: no line begins like this")
        if kind == "A" and not self.start:
            raise Refused(number, "BadLine: an attribute that follows no start")
        if kind in ("A", "?"):
            name, _, text = name.partition(" ")
        elif kind in ("-", "C"):
            name, text = "", name
        text = unescape(number, text)
        if not raw.endswith(b"\n"):
            raise Refused(number, "NoFinalLineFeed: the last line has no line feed")
        return kind, name, text

    def write_start(self, empty):
        """Tests and writes the start that was read, an empty element where its end follows."""
        number, name = self.start
        bound = dict(self.bound) if self.attributes else self.bound
        own = set()
        for _, attribute, uri in self.attributes:
            prefix = declared(attribute)
            if prefix is not None and prefix not in own and not bad_binding(prefix, uri):
                own.add(prefix)
                bound[prefix] = uri
        uri, local = self.resolve(number, name, bound)
        uri = bound.get("", "") if uri is None else uri
        seen = set()
        for number, attribute, value in self.attributes:
            if not QNAME.fullmatch(attribute):
                raise Refused(number, "BadName: " + ascii(attribute))
            prefix = declared(attribute)
            key = self.resolve(number, attribute, bound) if prefix is None else prefix
            if key in seen:
                raise Refused(number, "DoubleAttribute: " + attribute)
            seen.add(key)
            if prefix is not None and bad_binding(prefix, value):
                raise Refused(number, "BadNamespace: " + attribute)
            try:
                self.target.attribute(attribute, allowed(number, value))
            except NotEncoded:
                raise Refused(number, NOT_ENCODED) from None
        self.target.end_start(name, uri, local, empty, not self.open)
        self.open.append((name, self.bound))
        self.bound = bound
        self.start, self.attributes = None, []

    def resolve(self, number, name, bound):
        """The namespace and local part of an attribute's name; its prefix must be bound."""
        prefix, _, local = name.rpartition(":")
        if prefix and prefix not in bound:
            raise Refused(number, "UnboundPrefix: " + prefix)
        return bound[prefix] if prefix else None, local

    def text(self, number, text):
        if self.open or self.fragment:
            self.target.text(allowed(number, text), not self.open)
        elif text.strip(SPACE):
            raise Refused(number, "Unbalanced: text outside the top element")

    def comment(self, number, text):
        if "--" in text or text.endswith("-") or "\r" in text:
            raise Refused(number, "an XML comment can't hold `--`, a last `-` or a carriage return")
        self.target.comment(allowed(number, text), not self.open)

    def instruction(self, number, target, text):
        if not NCNAME.fullmatch(target) or target.lower() == "xml":
            raise Refused(number, "BadName: " + ascii(target))
        text = text.lstrip(" \t\n")
        if "?>" in text or "\r" in text:
            raise Refused(number, "an XML instruction can't hold `?>` or a carriage return")
        self.target.instruction(target, allowed(number, text), not self.open)

    def finish(self, number):
        if self.start:
            self.write_start(False)
        if self.open:
            raise Refused(number, "Truncated: an element is open at the end")
        if not self.seen_top and not self.fragment:
            raise Refused(number, "NoRoot: no element")
        self.target.finish(not self.fragment)

    def convert(self, source):
        number = 0
        for number, raw in enumerate(source, 1):
            self.line(number, raw)
            if len(self.target.pieces) > FLUSH:
                self.flush()
        self.finish(number)
        self.flush()

    def flush(self):
        self.out.write(self.target.taken())


def arguments():
    """The arguments of the command."""
    import argparse  # it takes longer than a short conversion

    parser = argparse.ArgumentParser(
        description=__doc__, formatter_class=argparse.RawDescriptionHelpFormatter
    )
    parser.add_argument(
        "--fragment", action="store_true", help="take lines without a single top element"
    )
    parser.add_argument(
        "--result", action="store_true", help="take lines as the result of a stylesheet, written as the other options say"
    )
    for option, values in settings.OPTIONS.items():
        parser.add_argument("--" + option, choices=values, metavar="VALUE", dest=option, help=f"{option} of xsl:output")
    parser.add_argument(
        "file", nargs="?", metavar="FILE", help="the lines; standard input where none is named"
    )
    options = parser.parse_args()
    options.said = {name: value for name, value in vars(options).items() if name in settings.OPTIONS and value is not None}
    options.result = options.result or bool(options.said)
    fault = settings.fault(options.said)
    if options.fragment and options.result:
        fault = "--fragment takes no option of a result"
    if fault:
        parser.exit(2, f"pyx2xml: {fault}\n")
    return options


def run_native(options):
    """Goes on as the program in C, where there is one."""
    program = native.program("pyx2xml")
    if program:
        kind = ["--fragment"] if options.fragment else ["--result"] if options.result else []
        said = settings.Settings(options.said).arguments()
        os.execv(program, ["pyx2xml", *kind, *said, "--", *filter(None, [options.file])])


def main():
    streams.take()
    options = arguments()
    run_native(options)
    said = options.said if options.result else None
    name = options.file or "standard input"
    try:
        with tempfile.SpooledTemporaryFile(IN_MEMORY) as made:
            with open(options.file or 0, "rb", closefd=bool(options.file)) as source:
                Converter(made, options.fragment, said).convert(source)
            made.seek(0)
            name = "standard output"
            with open(1, "wb", closefd=False) as out:
                shutil.copyfileobj(made, out)
    except Refused as fault:
        sys.exit(f"pyx2xml: {name}:{fault}")
    except OSError as fault:
        sys.exit(f"pyx2xml: {name}: {fault.strerror}")
