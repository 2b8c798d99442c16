"""Writes an XML document as PYX lines, the form that xslt reads.

A convenience outside the proved product: nothing here is proved. XML is read by
expat, from Python's standard library, which takes names as XML 1.0 has them in its
fourth edition. The encodings are those of lib/encodings.py: UTF-8, UTF-16 and the
usual ones of one byte for each character, by their registered names.

Entities are expanded, CDATA sections are text, and the namespace rules are
tested. Two things are lost, since PYX has no place for them: the XML declaration
and the document type declaration. A document with the latter is refused, unless
--drop-doctype says to go on. Then the entities and the attribute defaults that
stand inside it count, nothing outside the document is read, and a reference to
an entity that is not declared inside it is refused.

A document that is refused gets one line on standard error, FILE:LINE:COLUMN and the
reason, and status 1. What was written until then lacks its end and its last line feed, so
that nothing takes it for a document.

--lines TABLE writes to TABLE, for each PYX line in turn, the line of XML that it
comes from: an attribute from that where its start tag begins, a text from that of
its first character that is no white space.

Where there is a C compiler with expat (Debian: libexpat1-dev), tools/c/xml2pyx.c does
the work; else, or with XSLT_CONVERTERS=python in the environment, this module does it,
some thirty times more slowly, and writes nothing at all of a document that is refused.
"""

import os
import re
import sys
import tempfile
from array import array
from xml.parsers import expat

from lib import native, streams
from lib.encodings import is_known
from lib.namespaces import NO_LETTERS, Namespaces, place_in_target, place_of, place_of_colon, place_of_no_letter

CHUNK = 1 << 16
IN_MEMORY = 1 << 24
SPACE = " \t\r\n"
UNKNOWN_ENCODING = expat.errors.XML_ERROR_UNKNOWN_ENCODING
INVALID_TOKEN = expat.errors.XML_ERROR_INVALID_TOKEN
WIDE = {
    b"\xff\xfe": "UTF-16LE",
    b"<\0": "UTF-16LE",
    b"\xfe\xff": "UTF-16BE",
    b"\0<": "UTF-16BE",
}
MARK = "(?:\ufeff|\xef\xbb\xbf)?"
DECLARATION = re.compile(
    MARK + r"""(<\?xml[ \t\r\n]+version[ \t\r\n]*=[ \t\r\n]*(?:"[^"]*"|'[^']*')"""
    r"""(?:[ \t\r\n]+encoding[ \t\r\n]*=[ \t\r\n]*(?:"[^"]*"|'[^']*'))?)"""
    r"""(?:[ \t\r\n]+standalone[ \t\r\n]*=[ \t\r\n]*(?:"(no)"|'(no)'))?[ \t\r\n]*\?>"""
)
LINE_END = re.compile("\r\n?|\n")


class Refused(Exception):
    """Where and why a document is refused: line, column, reason."""

    def __str__(self):
        return "{}:{}: {}".format(*self.args)


def escape(text):
    return (
        text.replace("\\", "\\\\").replace("\n", "\\n").replace("\t", "\\t").replace("\r", "\\r")
    )


def standing_alone(head):
    """The head of a document with an XML declaration that says `standalone="yes"`.

    Where a document points at declarations outside itself, expat passes over an
    entity in an attribute that it does not know, without a word. Where the document
    stands alone, expat refuses it. Nothing but `no` is replaced, so that a fault of the
    declaration stays. With the new head come the line on which the places of faults have
    moved, from which column on, and by how many columns.
    """
    codec = WIDE.get(head[:2], "latin-1")
    text = head.decode(codec, "ignore")
    found = DECLARATION.match(text)
    if found:
        alone = 2 if found[2] else 3 if found[3] else None
        start, end = found.span(alone) if alone else (found.end(1), found.end(1))
        made = "yes" if alone else ' standalone="yes"'
    elif re.match(MARK + r"<\?xml[ \t\r\n]", text):
        return head, (1, 0, 0)
    else:
        start = end = re.match(MARK, text).end()
        made = '<?xml version="1.0" standalone="yes"?>'
    before, rest = LINE_END.split(text[:start]), text[end : found.end() if found else end]
    columns = 0 if LINE_END.search(rest) else len(made) - (end - start)
    kept = len(text[:start].encode(codec)), len(text[:end].encode(codec))
    return head[: kept[0]] + made.encode(codec) + head[kept[1] :], (len(before), len(before[-1]), columns)


class Converter:
    """Hears one document from expat and keeps its PYX lines."""

    def __init__(self, out, drop_doctype, places=None):
        self.out = out
        self.drop_doctype = drop_doctype
        self.lines = []
        self.places = places  # where asked for: of each PYX line so far its line of XML
        self.in_text = False
        self.is_blank = True  # the text so far is white space
        self.in_doctype = self.has_doctype = self.has_root = False
        self.moved = (1, 0, 0)
        self.encoding = None  # for reading a tag alone
        self.namespaces = Namespaces()
        # expat without namespaces gives declarations and attributes in their order. Where there is a document type
        # declaration a second reader, with namespaces, hears nothing and tests their rules in the entities too.
        self.reader = expat.ParserCreate()
        self.tester = expat.ParserCreate(namespace_separator="\x01")
        reader = self.reader
        reader.XmlDeclHandler = self.tester.XmlDeclHandler = self.declaration
        reader.ordered_attributes = True
        if places is None:
            # Of a text that is joined by expat one learns where it ends, and not where it begins.
            reader.buffer_text = True
            reader.buffer_size = CHUNK
        reader.StartElementHandler = self.start
        reader.EndElementHandler = self.end
        reader.CharacterDataHandler = self.text
        reader.CommentHandler = self.comment
        reader.ProcessingInstructionHandler = self.instruction
        reader.StartDoctypeDeclHandler = self.start_doctype
        reader.EndDoctypeDeclHandler = self.end_doctype
        reader.ExternalEntityRefHandler = self.outside

    def convert(self, source):
        head = source.read(CHUNK)
        self.encoding = WIDE.get(head[:2])
        if self.drop_doctype and head:
            head, self.moved = standing_alone(head)
        while head:
            self.feed(head, False)
            head = source.read(CHUNK)
        self.feed(b"", True)

    def feed(self, data, last):
        refusals = self.parse(self.reader, data, last)
        if not self.has_doctype and (self.has_root or refusals):
            self.tester = None
        if self.tester:
            refusals += self.parse(self.tester, data, last)
        if refusals:
            line, column, reason = min(refusals)
            if line == self.moved[0] and column >= self.moved[1]:
                column -= self.moved[2]
            raise Refused(line, column + 1, reason)
        self.out.write("".join(self.lines).encode())
        self.lines.clear()

    def parse(self, parser, data, last):
        """Gives a parser the next bytes: where and why it refuses them, in a list."""
        try:
            parser.Parse(data, last)
        except expat.ExpatError as fault:
            return [(fault.lineno, fault.offset, expat.ErrorString(fault.code))]
        except Refused as fault:
            return [fault.args]
        except (LookupError, ValueError):
            return [(parser.ErrorLineNumber, parser.ErrorColumnNumber, UNKNOWN_ENCODING)]
        return []

    def refuse(self, reason, place=None):
        raise Refused(*(place or place_of(self.reader)), reason)

    def declaration(self, version, encoding, _):
        """A declared encoding that the converters do not take is unknown, though Python may know it."""
        if encoding and not is_known(encoding):
            raise LookupError(encoding)
        self.encoding = self.encoding or encoding

    def test_letters(self, *names):
        """Tests the letters of names in ISO-8859-1, which expat does not."""
        if (self.encoding or "").upper() == "ISO-8859-1" and any(map(NO_LETTERS.search, names)):
            self.refuse(INVALID_TOKEN, place_of_no_letter(self.reader))

    def line(self, text):
        if self.in_text:
            self.in_text = False
            self.lines.append("\n")
        self.lines.append(text)
        self.place(1)

    def place(self, count):
        """So many PYX lines come from here."""
        if self.places is not None:
            self.places.extend([self.reader.CurrentLineNumber] * count)

    def start(self, name, attributes):
        self.has_root = True
        self.test_letters(name, *attributes[::2])
        fault = None if self.has_doctype else self.namespaces.enter(name, attributes)
        if fault:
            self.refuse(fault, place_of_colon(self.reader, self.encoding) if fault == INVALID_TOKEN else None)
        self.line("(" + name + "\n")
        for at in range(0, len(attributes), 2):
            self.lines.append("A" + attributes[at] + " " + escape(attributes[at + 1]) + "\n")
        self.place(len(attributes) // 2)

    def end(self, name):
        if not self.has_doctype:
            self.namespaces.leave()
        self.line(")" + name + "\n")

    def text(self, text):
        if not self.in_text:
            self.line("-")
            self.in_text = self.is_blank = True
        self.lines.append(escape(text))
        if self.places is not None and self.is_blank and text.strip(SPACE):
            self.is_blank = False
            before = text[: len(text) - len(text.lstrip(SPACE))]
            self.places[-1] = self.reader.CurrentLineNumber + before.count("\n")

    def comment(self, text):
        if not self.in_doctype:
            self.line("C" + escape(text) + "\n")

    def instruction(self, target, text):
        if self.in_doctype:
            return
        self.test_letters(target)
        if not self.has_doctype and ":" in target:
            self.refuse(INVALID_TOKEN, place_in_target(self.reader, target))
        self.line("?" + target + " " + escape(text) + "\n")

    def start_doctype(self, *_):
        if not self.drop_doctype:
            self.refuse("a document type declaration; --drop-doctype reads on without it")
        self.in_doctype = self.has_doctype = True

    def end_doctype(self):
        self.in_doctype = False

    def outside(self, *_):
        self.refuse("an entity that stands outside the document")


def arguments():
    """The arguments of the command."""
    import argparse  # it takes longer than a short conversion

    parser = argparse.ArgumentParser(
        description=__doc__, formatter_class=argparse.RawDescriptionHelpFormatter
    )
    parser.add_argument(
        "--drop-doctype", action="store_true", help="read a document type declaration and drop it"
    )
    parser.add_argument(
        "--lines", metavar="TABLE", help="write where each PYX line comes from to this file"
    )
    parser.add_argument(
        "file", nargs="?", metavar="FILE", help="the document; standard input where none is named"
    )
    return parser.parse_args()


def run_native(options):
    """Goes on as the program in C, where there is one."""
    program = native.program("xml2pyx")
    if program:
        drop = ["--drop-doctype"] if options.drop_doctype else []
        table = ["--lines", options.lines] if options.lines else []
        os.execv(program, ["xml2pyx", *drop, *table, "--", *filter(None, [options.file])])


def write_all(made, places, table):
    """Writes the lines, and before their last line feed the table, if one is asked for: of neither a failed run leaves all."""
    name = "standard output"
    try:
        with open(1, "wb", closefd=False) as out:
            last = made.seek(-1, os.SEEK_END)
            made.seek(0)
            while made.tell() < last:
                out.write(made.read(min(CHUNK, last - made.tell())))
            out.flush()
            if table:
                name = table
                with open(table, "w", encoding="ascii") as rows:
                    rows.writelines(f"{place}\n" for place in places)
            name = "standard output"
            out.write(made.read())
    except OSError as fault:
        sys.exit(f"xml2pyx: {name}: {fault.strerror}")


def main():
    streams.take()
    options = arguments()
    run_native(options)
    name = options.file or "standard input"
    places = array("Q") if options.lines else None
    try:
        with tempfile.SpooledTemporaryFile(IN_MEMORY) as made:
            with open(options.file or 0, "rb", closefd=bool(options.file)) as source:
                Converter(made, options.drop_doctype, places).convert(source)
            write_all(made, places, options.lines)
    except Refused as fault:
        sys.exit(f"xml2pyx: {name}:{fault}")
    except OSError as fault:
        sys.exit(f"xml2pyx: {name}: {fault.strerror}")
