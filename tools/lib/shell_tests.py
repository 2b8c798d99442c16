"""Tests tools/xslt-xml and tools/check-xml, on a program in the place of the real one, and on that where it is built."""

import glob
import io
import os
import re
import subprocess
import sys
import tempfile
from unittest import mock

from lib import results
from lib.converter_tests import EXAMPLES, PYTHON, TOOLS, implementations, random_samples, samples_of
from lib.modules import Folder, Module
from lib.samples import lines

STAND_IN = os.path.join(TOOLS, "lib", "stand_in.py")
# The real program, where it is built, or one that is named.
REAL = os.environ.get("XSLT_PROGRAM", os.path.join(TOOLS, "..", "crates", "xslt", "out", "xslt"))
SHEET = '<x:stylesheet xmlns:x="http://www.w3.org/1999/XSL/Transform" version="1.0">\n{}\n</x:stylesheet>\n'
BODY = SHEET.format('<x:output method="text"/><x:template match="/">\n{}\n</x:template>')

DECLARED = '<?xml version="1.0" encoding="UTF-8"?>\n'

# Files by their names, the arguments of tools/xslt-xml, and what comes: the status, the result, and what is reported with --raw, in which
# MODULE.pyx is the name in the folder.
RUNS = {
    "a result": (
        {"s.xsl": SHEET.format(""), "r.xml": "<r>é\n<i/></r>"},
        ["s.xsl", "r.xml"], 0, DECLARED + "<r>é\n<i/></r>\n", ["message 0.pyx source.pyx"],
    ),
    "options and parameters": (
        {"s.xsl": SHEET.format('<x:output method="text"/>'), "r.xml": "<r/>"},
        ["s.xsl", "--budget", "5", "r.xml", "--stats", "a=0"], 0, "(r\n)r\n",
        ["message --budget 5 --stats 0.pyx source.pyx a=0"],
    ),
    "a status": (
        {"s.xsl": SHEET.format(""), "r.xml": "<r/>"}, ["s.xsl", "r.xml", "a=4"], 4, "",
        ["message 0.pyx source.pyx a=4"],
    ),
    "a beginning of a text": (
        {"s.xsl": SHEET.format('<x:output method="text"/>'), "r.xml": "<r/>"}, ["s.xsl", "r.xml", "a=5"], 5,
        "", ["message 0.pyx source.pyx a=5", f"xslt-xml: the result, held in {tempfile.gettempdir()}, could not be written"],
    ),
    "a fault of a module": (
        {
            "d/s.xsl": SHEET.format('<x:import href="../e/a.xsl"/>'),
            "e/a.xsl": SHEET.format('<x:output/>\n<x:include\nhref="b c.xsl"/>'),
            "e/b c.xsl": SHEET.format('<x:template\nmatch="/">\n\n<x:value-of\nselect="$no"/></x:template>'),
            "r.xml": "<r/>",
        },
        ["d/s.xsl", "r.xml"], 3, "",
        ["message 0.pyx source.pyx", "fault 39 UnknownVariable d/../e/b c.xsl 5"],
    ),
    "a check": (
        {"s.xsl": SHEET.format('<x:import href="a.xsl"/>'), "a.xsl": SHEET.format("<x:param/>")}, ["--check", "s.xsl"], 0,
        "", ["message --check 0.pyx"],
    ),
    "a missing module": (
        {"d/s.xsl": SHEET.format('<x:import href="no.xsl"/>')}, ["d/s.xsl", "r.xml"], 2, "",
        ["message 0.pyx source.pyx", "fault 70 ReadFault d/no.xsl 0"],
    ),
    "a module that is no XML": (
        {"s.xsl": SHEET.format('<x:import href="a.xsl"/>'), "a.xsl": "<a>\n<b></a>"}, ["--check", "s.xsl"], 2, "",
        ["message --check 0.pyx", "xml2pyx: a.xsl:2:6: mismatched tag", "fault 70 ReadFault a.xsl 0"],
    ),
    "a circle": (
        {"s.xsl": SHEET.format('<x:output/>\n<x:include href="a.xsl"/>'), "a.xsl": SHEET.format('\n<x:include href="s.xsl"/>')},
        ["s.xsl", "r.xml"], 3, "", ["message 0.pyx source.pyx", "fault 30 CircularModule a.xsl 3"],
    ),
    "too many modules": (
        {"s.xsl": SHEET.format('<x:include href="./s.xsl"/>\n<x:include href="./s.xsl"/>')}, ["s.xsl", "r.xml"], 3, "",
        ["message 0.pyx source.pyx", "fault 31 TooManyModules " + "./" * 255 + "s.xsl 2"],
    ),
    "mentions that are none": (
        {"s.xsl": SHEET.format('<import href="a.xsl"/><x:template><x:import href="a.xsl"/></x:template><x:param x:href="$no"/>')},
        ["s.xsl", "r.xml"], 2, "", ["message 0.pyx source.pyx", "fault 70 ReadFault a.xsl 0"],
    ),
    "a document type declaration": (
        {"s.xsl": SHEET.format(""), "r.xml": "<!DOCTYPE r>\n<r/>"}, ["s.xsl", "r.xml", "--drop-doctype"], 0, DECLARED + "<r/>\n",
        ["message 0.pyx source.pyx"],
    ),
    "a source that is no XML": (
        {"s.xsl": SHEET.format(""), "r.xml": "<a>\n<b></a>"}, ["s.xsl", "r.xml"], 2, "",
        ["message 0.pyx source.pyx", "xml2pyx: r.xml:2:6: mismatched tag", "fault 70 ReadFault r.xml 0"],
    ),
    "a source after its document element": (
        {"s.xsl": SHEET.format(""), "r.xml": "<a/>\n<b/>"}, ["s.xsl", "r.xml"], 2, "",
        ["message 0.pyx source.pyx", "xml2pyx: r.xml:2:1: junk after document element", "fault 70 ReadFault r.xml 0"],
    ),
}

# What the outputs of a stylesheet and of its modules say, and what counts.
CDATA = "cdata-section-elements"
X, Y, Z = ("output", {"method": "x"}), ("output", {"method": "y"}), ("output", {"method": "z"})
SAID = {
    "none": ({"s": []}, {}),
    "the last": ({"s": [X, Y]}, {"method": "y"}),
    "before an import's": ({"s": [("import", "a"), X], "a": [Y]}, {"method": "x"}),
    "an import's": ({"s": [("import", "a"), ("import", "b"), ("import", "c")], "a": [X], "b": [Y], "c": []}, {"method": "y"}),
    "an included one": ({"s": [X, ("include", "a"), ("import", "b")], "a": [Y], "b": [Z]}, {"method": "y"}),
    "an import of an included one": ({"s": [("include", "a"), ("import", "b")], "a": [("import", "c")], "b": [Y], "c": [Z]}, {"method": "z"}),
    "each attribute by itself": (
        {"s": [("import", "a"), X, ("output", {"indent": "no"})], "a": [("output", {"indent": "yes", "encoding": "UTF-8"})]},
        {"method": "x", "indent": "no", "encoding": "UTF-8"},
    ),
    "elements of CDATA sections of all": (
        {"s": [("import", "a"), ("output", {CDATA: "b a"}), ("output", {CDATA: "{u}c"})], "a": [("output", {CDATA: "a"})]}, {CDATA: "a b {u}c"},
    ),
}

# What outputs say, a result, and how it is written.
HTML = b"(html\n)html\n"
WRITTEN = {
    "a document": ({}, b"(a\n)a\n", DECLARED + "<a/>\n"),
    "a piece": ({"doctype-system": "s"}, b"-x\n(a\n)a\n-y\\n\n", DECLARED + "x<a/>y\n"),
    "nothing": ({}, b"", ""),
    "no declaration": ({"omit-xml-declaration": "yes"}, b"(a\n)a\n", "<a/>\n"),
    "standalone": (
        {"omit-xml-declaration": "no", "standalone": "yes"}, b"(a\n)a\n", '<?xml version="1.0" encoding="UTF-8" standalone="yes"?>\n<a/>\n',
    ),
    "a system identifier": (
        {"doctype-system": 'a"b', "omit-xml-declaration": "yes"}, b"C1\n(p:a\nAxmlns:p u\n)p:a\n",
        "<!DOCTYPE p:a SYSTEM 'a\"b'>\n<!--1-->\n<p:a xmlns:p=\"u\"/>\n",
    ),
    "a public one alone": ({"doctype-public": "p"}, b"(a\n)a\n", DECLARED + "<a/>\n"),
    "both": ({"doctype-public": "p", "doctype-system": "s"}, b"(a\n)a\n", DECLARED + '<!DOCTYPE a PUBLIC "p" "s">\n<a/>\n'),
    "HTML": ({"method": "html", "doctype-public": "p"}, HTML, '<!DOCTYPE html PUBLIC "p">\n<html></html>\n'),
    "HTML by its root": ({}, HTML, "<html></html>\n"),
    "XHTML": ({}, b"(html\nAxmlns u\n)html\n", DECLARED + '<html xmlns="u"/>\n'),
}

def run_xml(folder, tool, *arguments, env=None, data=b""):
    """One run of a tool over XML in a folder: its status, the result, and what is reported."""
    command = [sys.executable, os.path.join(TOOLS, tool), *arguments]
    env = {**os.environ, **(env or {})}
    done = subprocess.run(command, cwd=folder, capture_output=True, check=False, env=env, input=data)
    return done.returncode, done.stdout.decode(), done.stderr.decode()


def write_files(folder, files):
    for path, text in files.items():
        path = os.path.join(folder, path)
        os.makedirs(os.path.dirname(path), exist_ok=True)
        with open(path, "w", encoding="utf-8") as file:
            file.write(text)


def xml_of(lines_there, said):
    """The XML of a result with these lines."""
    with results.open_result(said) as result, io.BytesIO() as made:
        os.write(result.target, lines_there)
        result.begin()
        reason = result.finish()
        result.copy(made)
        return reason or made.getvalue().decode()


def runs_of_xml(tests):
    """Runs on XML: the arguments that the program gets, its status, names and lines of XML, the form of the result."""
    for env in implementations():
        for name, (files, arguments, *wanted, said) in RUNS.items():
            with tempfile.TemporaryDirectory() as folder:
                write_files(folder, files)
                status, result, err = run_xml(folder, "xslt-xml", "--raw", "--program", STAND_IN, *arguments, env=env)
                got = status, result, re.sub(r"/dev/fd/\d+", "source.pyx", err)
                tests.check("xslt-xml: " + name, got, (*wanted, lines(said).decode()))
                if arguments[0] == "--check":
                    got = run_xml(folder, "check-xml", "--raw", "--program", STAND_IN, *arguments[1:], env=env)
                    tests.check("check-xml: " + name, got, (*wanted, lines(said).decode()))
    for name, (parts, wanted) in SAID.items():
        folder = Folder("", False)
        for xml, rows in parts.items():
            folder.modules[xml] = Module(xml, xml, xml, parts=[(*row, None) for row in rows])
        tests.check("outputs: " + name, folder.output("s"), wanted)
    for name, (said, result, wanted) in WRITTEN.items():
        tests.check("a result as XML: " + name, xml_of(result, said), wanted)


def programs():
    """The program in the place of the real one, and that where it is built."""
    return [STAND_IN] + ([REAL] if os.path.exists(REAL) else [])


def reported(text):
    """What is reported except the messages of a stylesheet, which the one in the place of the real one has."""
    return "".join(line for line in text.splitlines(True) if not re.match(r"(--check )?0\.pyx", line))


def large_documents(tests):
    """Documents that no pipe holds at once: each part may be the first to end, and none waits for another."""
    rows = "<b c='d'>é</b>\n" * 60000
    xml, shown = f"<r>{rows}</r>", f'{DECLARED}<r>{rows}</r>\n'.replace("'", '"')
    files = {"s.xsl": SHEET.format(""), "no.xsl": BODY.format('<x:value-of select="$no"/>'), "r.xml": xml, "bad.xml": xml[:-1], "out": "old"}
    control = "xslt-xml: the result, line {}: XML has no such character\n"
    for env in implementations():
        run = lambda *arguments: run_xml(folder, "xslt-xml", "--program", STAND_IN, *arguments, env=env)
        with tempfile.TemporaryDirectory() as folder:
            write_files(folder, files)
            tests.check("a large document", run("s.xsl", "r.xml")[:2], (0, shown))
            tests.check("a large piece of one", run("s.xsl", "r.xml", "b=x")[:2], (0, shown[:-1] + "x"))
            tests.check("one that a file gets", run("s.xsl", "-o", "made", "r.xml")[:2], (0, ""))
            with open(os.path.join(folder, "made"), encoding="utf-8") as made:
                tests.check("what it gets", made.read(), shown)
            status, result, err = run("s.xsl", "bad.xml")
            tests.check("a large document that ends too soon", (status, result, "bad.xml:60001:1: error: unclosed token" in err), (2, "", True))
            got = run("no.xsl", "r.xml")
            tests.check("a fault before it is read", (got[0], got[1], "error: variable $no is" in got[2]), (3, "", True))
            got = run("s.xsl", "-o", "out", "r.xml", "b=\x01")
            tests.check("a result that no XML can hold", (*got[:2], reported(got[2])), (5, "", control.format(60000 * 5 + 3)))
            with open(os.path.join(folder, "out"), encoding="utf-8") as kept:
                tests.check("what -o leaves then", (kept.read(), sorted(os.listdir(folder))), ("old", sorted([*files, "made"])))


def converted_results(tests):
    """Both converters give the same XML of a result, and one that is ended is reported."""
    rows = [*samples_of("pyx2xml"), *random_samples("pyx2xml", 100)] if len(implementations()) > 1 else ()
    for name, data in rows:
        with mock.patch.dict(os.environ, PYTHON):
            wanted = xml_of(data, {})
        tests.check("a result by both converters: " + name, xml_of(data, {}), wanted)
    with tempfile.TemporaryDirectory() as folder:
        program = os.path.join(folder, "converter")
        write_files(folder, {"converter": "#!/bin/sh\nkill -6 $$\n"})
        os.chmod(program, 0o755)
        with results.PipedResult(program, {}) as result:
            result.begin()
            tests.check("a converter that is ended", result.finish(), "the converter was ended by signal 6 (SIGABRT)")


def outputs(tests):
    """-o, -, --outdir, --time, --version, --help, and arguments that are refused."""
    sheet, run = ["--program", STAND_IN, "s.xsl"], lambda *arguments, **more: run_xml(folder, "xslt-xml", *arguments, **more)
    with tempfile.TemporaryDirectory() as folder:
        write_files(folder, {"s.xsl": BODY.format(""), "r.xml": "<r/>", "t.xml": "<t/>", "bad.xml": "<t>", "out": "old"})
        path = os.path.join(folder, "out")
        text = lambda *names: open(os.path.join(folder, *names), encoding="utf-8").read()
        tests.check("-o after a fault", (run(*sheet, "-o", "out", "r.xml", "a=4")[0], text("out")), (4, "old"))
        tests.check("-o after a write fault", (run(*sheet, "-o", "out", "r.xml", "a=5")[0], text("out")), (5, "old"))
        os.chmod(path, 0o640)
        tests.check("-o", (run(*sheet, "-o", "out", "r.xml")[:2], text("out")), ((0, ""), "(r\n)r\n"))
        tests.check("-o keeps the permissions", os.stat(path).st_mode & 0o777, 0o640)
        tests.check("-o to a device", run(*sheet, "-o", "/dev/null", "r.xml")[:2], (0, ""))
        tests.check("-o to no folder", run(*sheet, "-o", "no/out", "r.xml")[0], 5)
        tests.check("source from standard input", run(*sheet, "-", data=b"<u/>")[:2], (0, "(u\n)u\n"))
        tests.check("a bad one", run(*sheet, "-", data=b"<u>")[2].splitlines()[1:2], ["standard input:1:4: error: no element found [70 ReadFault]"])
        tests.check("sheet from standard input", run("--program", STAND_IN, "-", "r.xml", data=BODY.format("").encode())[:2], (0, "(r\n)r\n"))
        got = run(*sheet, "--outdir", "made", "r.xml", "bad.xml", "t.xml")
        tests.check("--outdir", (got[0], sorted(os.listdir(os.path.join(folder, "made")))), (2, ["r.txt", "t.txt"]))
        tests.check("what is in it", (text("made", "r.txt"), text("made", "t.txt")), ("(r\n)r\n", "(t\n)t\n"))
        tests.check("nothing else is left", sorted(os.listdir(folder)), ["bad.xml", "made", "out", "r.xml", "s.xsl", "t.xml"])
        tests.holds("--time", re.search(r"xslt-xml: r.xml: stylesheet [\d.]+ s, .* in all\n", run(*sheet, "--time", "r.xml")[2]))
        tests.holds("--version", run("--version")[1].startswith("xslt-xml of "))
        tests.holds("--help", "usage: tools/xslt-xml" in run("--help")[1])
        for arguments in ([], ["s.xsl"], ["s.xsl", "r.xml", "t.xml"], ["-", "-"], ["-o"], ["--check", "s.xsl", "r.xml"], ["--outdir", "made", "-o", "out", "s.xsl", "r.xml"]):
            tests.check(f"arguments {arguments}", run("--program", STAND_IN, *arguments)[:2], (1, ""))
        tests.check("one name twice", run(*sheet, "--outdir", "made", "r.xml", "./r.xml")[0], 1)
        tests.check("no program", run("--program", "./no", "s.xsl", "r.xml")[0], 125)
    under_make(tests)


def under_make(tests):
    """make builds again what could not be built before, and leaves alone what is new."""
    rule = f"out: s.xsl r.xml\n\t{sys.executable} {os.path.join(TOOLS, 'xslt-xml')} --program {STAND_IN} -o $@ s.xsl r.xml\n"
    with tempfile.TemporaryDirectory() as folder:
        write_files(folder, {"s.xsl": BODY.format(""), "r.xml": "<r>", "Makefile": rule})
        make = lambda: subprocess.run(["make", "-s"], cwd=folder, capture_output=True, check=False).returncode
        path = os.path.join(folder, "out")
        try:
            tests.check("make with a fault", (make(), os.path.exists(path)), (2, False))
        except FileNotFoundError:
            return  # there is no make
        write_files(folder, {"r.xml": "<r/>"})
        tests.check("make without it", (make(), os.path.exists(path)), (0, True))
        made = os.stat(path).st_mtime_ns
        tests.check("make once more", (make(), os.stat(path).st_mtime_ns), (0, made))


def expectations(folder):
    """The arguments of an example, its result, as XML where it has elements, and its status."""
    expected = {"expected.txt": "", "expected.status": "0", "words": "sheet.pyx source.pyx"}
    for name in expected:
        if os.path.exists(folder + name):
            with open(folder + name, encoding="utf-8") as file:
                expected[name] = file.read()
    arguments = expected["words"].replace("sheet.pyx", "sheet.xsl").replace("source.pyx", "source.xml").split()
    result = expected["expected.txt"]
    if result.startswith(("(", "?", "C")):
        with open(folder + "sheet.xsl", encoding="utf-8") as file:
            sheet = file.read()
        said = {"method": each for each in ("html", "xml") if f'method="{each}"' in sheet}
        result = xml_of(result.encode(), said)
    return arguments, result, int(expected["expected.status"])


def examples_of_xml(tests):
    """The examples from their XML by the real program, where it is built."""
    for folder in sorted(glob.glob(os.path.join(EXAMPLES, "*", ""))) if os.path.exists(REAL) else ():
        arguments, result, status = expectations(folder)
        files = [each for each in arguments if each.endswith((".xsl", ".xml", ".pyx"))]
        if files and all(not file.endswith(".pyx") and os.path.exists(folder + file) for file in files):
            got = run_xml(folder, "xslt-xml", "--program", REAL, *arguments)
            tests.check(folder + " from its XML", got[:2], (status, result))


def test(tests):
    runs_of_xml(tests)
    outputs(tests)
    large_documents(tests)
    converted_results(tests)
    examples_of_xml(tests)
