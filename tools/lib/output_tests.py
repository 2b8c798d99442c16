"""Tests how results are written (XSLT 1.0, 16): rows with a stylesheet, the lines of its result, and what is written.

A row begins with its name, which ends in a colon; its parts follow, each a word and its lines, which are indented:

    sheet       what the stylesheet holds, or the name of an example
    module X    what a module holds that it imports or includes as X
    lines       the PYX lines of its result, or its text where the method is text; of an example they are there
    written     what the tools write; it ends in `\\c` where no line feed ends it
    xsltproc    what xsltproc writes, where that is something else, and after this word why

Control characters, and what is beyond ASCII in another encoding than UTF-8, are written byte by byte as \\xHH, and a backslash twice. `output_tests.py PROGRAM` makes the parts `lines`, `written`
and `xsltproc` anew by the program, the tools and xsltproc (libxslt 1.1.35): look at what has changed.
"""

import glob
import os
import re
import subprocess
import sys
import tempfile

HERE = os.path.dirname(os.path.realpath(__file__))
EXAMPLES = os.path.join(HERE, "..", "..", "examples")
ROWS = os.path.join(HERE, "output_rows", "*.rows")
HEAD = '<xsl:stylesheet version="1.0" xmlns:xsl="http://www.w3.org/1999/XSL/Transform">\n'


class Row:
    """One row, by the words of its parts."""

    def __init__(self, name):
        self.name, self.parts, self.why = name, {}, ""

    def text(self, word):
        return "\n".join(self.parts[word]) + "\n"

    def files(self):
        """The files of the stylesheet, by their names."""
        texts = {word.removeprefix("module "): self.text(word) for word in self.parts if word.startswith("module ")}
        texts["sheet.xsl"] = self.text("sheet")
        return {name: f"{HEAD}{text}</xsl:stylesheet>\n" for name, text in texts.items()}

    def example(self):
        """The folder of the example that the row is about, or nothing."""
        return os.path.join(EXAMPLES, self.parts["sheet"][0].split()[1]) if self.parts["sheet"][0].startswith("example ") else ""

    def lines(self):
        if not self.example():
            return self.bytes("lines")
        with open(os.path.join(self.example(), "expected.txt"), "rb") as file:
            return file.read()

    def bytes(self, word):
        """The bytes of a part."""
        text = re.sub(rb"\\c\n$", b"", self.text(word).encode())
        return re.sub(rb"\\(\\|x..)", lambda found: b"\\" if found[1] == b"\\" else bytes([int(found[1][1:], 16)]), text)

    def set_bytes(self, word, made, encoding="UTF-8"):
        codec = "utf-8" if encoding.upper() == "UTF-8" else "ascii"
        shown = made.replace(b"\\", b"\\\\").decode(codec, "surrogateescape")
        shown = re.sub("[\ud800-\udfff\x00-\x09\x0b-\x1f\x7f-\xa0]", lambda found: as_bytes(found[0]), shown)
        self.parts[word] = shown[:-1].split("\n") if shown.endswith("\n") else (shown + "\\c").split("\n")

    def show(self):
        """The row as it is in its file."""
        rows = [self.name + ":"]
        for word, texts in self.parts.items():
            rows.append("  " + word + (f" {self.why}" if word == "xsltproc" else ""))
            rows += [("    " + text).rstrip(" ") if not text.strip() else "    " + text for text in texts]
        return "\n".join(rows) + "\n"


def as_bytes(character):
    """A character of a row, or a byte that is none, as \\xHH."""
    return "".join(f"\\x{byte:02X}" for byte in character.encode(errors="surrogateescape"))


def read(path):
    """The rows of a file."""
    rows, words = [], None
    with open(path, encoding="utf-8", newline="\n") as file:
        for line in file.read().split("\n")[:-1]:
            if line.startswith("    ") or (not line and words is not None):
                words.append(line[4:])
            elif line.startswith("  "):
                word, _, why = line.strip().partition(" ")
                word, why = (f"{word} {why}", "") if word == "module" else (word, why)
                words = rows[-1].parts.setdefault(word, [])
                rows[-1].why = why or rows[-1].why
            else:
                rows.append(Row(line.removesuffix(":")))
    return rows


def said_by(row, folder):
    """What the outputs of a row's stylesheet say, as tools/xslt-xml reads them."""
    from lib.modules import Folder

    for name, text in row.files().items() if not row.example() else ():
        with open(os.path.join(folder, name), "w", encoding="utf-8") as file:
            file.write(text)
    sheet = os.path.join(row.example() or folder, "sheet.xsl")
    lines = os.path.join(folder, "lines")
    os.mkdir(lines)
    read_in = Folder(lines, False)
    read_in.add_sheet(sheet)
    return read_in.output(sheet), read_in, sheet


def written(said, lines):
    """What the tools write of the lines of a result where the outputs say this."""
    import io

    from lib import results

    with results.open_result(said) as result, io.BytesIO() as made:
        os.write(result.target, lines)
        result.begin()
        reason = result.finish()
        result.copy(made)
        return (f"refused: {reason}\n").encode() if reason else made.getvalue()


def test(tests):
    """Each row by both implementations; more results by both; all characters in all encodings."""
    rows(tests)
    both(tests)
    warned(tests)


# What a stylesheet asks for in vain: its output, its template, and the warnings.
IN_VAIN = """\
s.xsl:3: warning: disable-output-escaping="yes" has no effect: all text of the result is escaped (XSLT 1.0, 16.4, leaves that open)
  <x:text disable-output-escaping="yes">&lt;</x:text>
          ^
"""
UNKNOWN = """\
s.xsl:2: warning: the encoding UTF-7 is not known: the result is written in UTF-8
  <x:output encoding="UTF-7"/><x:template match="/">
                      ^
"""
UNESCAPED = '<x:text disable-output-escaping="yes">&lt;</x:text>'
WARNINGS = {
    "nothing": ("", '<x:text disable-output-escaping="no"/><text disable-output-escaping="yes"/>', ""),
    "text without escapes": ("", UNESCAPED + UNESCAPED.replace("text", "value-of"), IN_VAIN.replace("</x:text>\n", "</x:text>" + UNESCAPED.replace("text", "value-of") + "\n")),
    "text without escapes in a text": ('method="text"', UNESCAPED, ""),
    "an encoding": ('encoding="UTF-7"', "", UNKNOWN),
}


def warned(tests):
    """What a stylesheet asks for in vain is said once, and not with --raw."""
    from lib.shell_tests import SHEET, STAND_IN, run_xml, write_files

    for name, (said, body, wanted) in WARNINGS.items():
        with tempfile.TemporaryDirectory() as folder:
            sheet = SHEET.format(f'<x:output {said}/><x:template match="/">\n{body}\n</x:template>')
            write_files(folder, {"s.xsl": sheet, "r.xml": "<r/>", "t.xml": "<t/>"})
            command = ["xslt-xml", "--program", STAND_IN, "--outdir", "made", "s.xsl", "r.xml", "t.xml"]
            err = run_xml(folder, *command)[2]
            tests.check(f"warned of {name}", "".join(line for line in err.splitlines(True) if "source.pyx" not in line and "/dev/fd" not in line), wanted)
            tests.check(f"of {name} with --raw", "warning" in run_xml(folder, *command, "--raw")[2], False)


# What outputs say: each of these for results of all sorts.
SAID = (
    {"method": "html"},
    {"method": "html", "encoding": "US-ASCII", "indent": "no", "version": "4.0"},
    {"method": "xml", "indent": "yes", "encoding": "ISO-8859-15", "doctype-system": "s"},
    {"method": "xml", "encoding": "UTF-16", "cdata-section-elements": "a b {u}a {v}b c"},
    {"omit-xml-declaration": "yes", "indent": "no"},
)
HTML_NAMES = "html head meta body p pre div ul li br img input a script style td svg p:g Html HEAD".split()
HTML_ATTRIBUTES = "href checked http-equiv content xml:space title name xmlns".split()
HTML_VALUES = ("checked", "Content-Type", "text/html; charset=x", "preserve", "é€", "a<b>\"c'", "&{x} & \\n\\t\\r", "http://www.w3.org/1999/xhtml", "")


def random_html(chance, depth):
    """The lines of some elements of HTML."""
    made = []
    for _ in range(chance.randrange(4)):
        name = chance.choice(HTML_NAMES)
        made.append("(" + name)
        attributes = chance.sample(HTML_ATTRIBUTES, chance.choice([0, 0, 0, 1, 2]))
        made += [f"A{each} {chance.choice(HTML_VALUES)}" for each in attributes] + (["Axmlns:p u"] if ":" in name else [])
        made += random_html(chance, depth - 1) if depth else []
        made.append(")" + name)
        made += chance.choice([[], [], ["-"], ["- \\n"], ["-x < é"], ["-€"], ["Cc"], ["?p q"], ["-a", "-b]]>c"]])
    return made


def both(tests):
    """Both implementations write the same of results of all sorts, in each encoding of all characters."""
    import random
    from unittest import mock

    from lib import encoder
    from lib.converter_tests import PYTHON, implementations, random_samples, samples_of
    from lib.samples import lines

    if len(implementations()) == 1:
        return
    chance = random.Random(3)
    results = [*samples_of("pyx2xml"), *random_samples("pyx2xml", 50)]
    results += [(f"HTML {number}", lines(random_html(chance, 5))) for number in range(300)]
    tried = [(name, result, said) for name, result in results for said in SAID]
    characters = "".join(chr(number) for number in (*range(0x20, 0xD800), *range(0xE000, 0xFFFE), 0x1F600) if number != 0x5C)
    every = lines(["(a", "-" + characters, ")a"])
    tried += [(encoding, every, {"encoding": encoding}) for encoding in sorted(encoder.KNOWN)]
    for name, result, said in tried:
        with mock.patch.dict(os.environ, PYTHON):
            wanted = written(said, result)
        tests.check(f"written by both as {said}: {name}", written(said, result), wanted)


def rows(tests):
    """Each row by both implementations."""
    from unittest import mock

    from lib.converter_tests import implementations

    for path in sorted(glob.glob(ROWS)):
        for row in read(path):
            with tempfile.TemporaryDirectory() as folder:
                said, _, _ = said_by(row, folder)
                for env in implementations():
                    with mock.patch.dict(os.environ, env):
                        tests.check(f"written: {row.name}", written(said, row.lines()), row.bytes("written"))
            tests.holds(f"{row.name} says why xsltproc writes something else", bool(row.why) == ("xsltproc" in row.parts))


def make(program):
    """Makes the parts of all rows anew."""
    for path in sorted(glob.glob(ROWS)):
        rows = read(path)
        for row in rows:
            with tempfile.TemporaryDirectory() as folder:
                said, read_in, sheet = said_by(row, folder)
                source = os.path.join(row.example() or folder, "source.xml")
                if not row.example():
                    with open(source, "w", encoding="utf-8") as file:
                        file.write("<a/>")
                    with open(os.path.join(read_in.path, "source.pyx"), "w", encoding="utf-8") as file:
                        file.write("(a\n)a\n")
                    command = [program, read_in.name(sheet), "source.pyx"]
                    row.set_bytes("lines", subprocess.run(command, cwd=read_in.path, stdout=subprocess.PIPE, check=True).stdout)
                other = subprocess.run(["xsltproc", "--nonet", sheet, source], stdout=subprocess.PIPE, check=False).stdout
                made = written(said, row.lines())
                row.parts = {word: texts for word, texts in row.parts.items() if word not in ("written", "xsltproc")}
                encoding = said.get("encoding", "UTF-8")
                row.set_bytes("written", made, encoding)
                if other != made:
                    row.set_bytes("xsltproc", other, encoding)
        with open(path, "w", encoding="utf-8", newline="\n") as file:
            file.write("".join(row.show() for row in rows))


if __name__ == "__main__":
    sys.path.insert(0, os.path.dirname(HERE))
    make(sys.argv[1])
