"""Tests the converters: those in Python on their samples, and those in C against them.

Where no C compiler with expat is there, the programs in C are left out.
"""

import concurrent.futures
import glob
import io
import os
import random
import re
import resource
import shutil
import subprocess
import sys
import tempfile
from unittest import mock
from array import array
from xml.etree.ElementTree import ParseError, canonicalize

from lib import native, pyx2xml, xml2pyx
from lib.samples import BAD_PYX, BAD_XML, DROPPED, PLACES, TRIPS, WRITTEN, bytes_of, lines, random_element

TOOLS = os.path.dirname(os.path.dirname(os.path.realpath(__file__)))
EXAMPLES = os.path.join(TOOLS, "..", "examples")
MODULES = {"xml2pyx": xml2pyx, "pyx2xml": pyx2xml}
FLAGS = {"xml2pyx": "--drop-doctype", "pyx2xml": "--fragment"}
PYTHON = {"XSLT_CONVERTERS": "python"}
# Of programs whose buffers are so small that all sorts of texts go beyond one.
SMALL = {"xml2pyx": ["-DOUTPUT_ROOM=512"], "pyx2xml": ["-DOUTPUT_ROOM=4096", "-DLINES_ROOM=256"]}


def call(tool, data, flag=False):
    """One conversion in this process: the output, or the place and reason of its refusal."""
    out, module = io.BytesIO(), MODULES[tool]
    try:
        module.Converter(out, flag).convert(io.BytesIO(data))
    except module.Refused as fault:
        return str(fault)
    return out.getvalue()


def run(tool, data, *arguments, env=None):
    """One run of a tool as a command: status, output, and the text on standard error."""
    done = subprocess.run(
        [sys.executable, os.path.join(TOOLS, tool), *arguments],
        input=data,
        capture_output=True,
        env={**os.environ, **(env or {})},
        check=False,
    )
    return done.returncode, done.stdout, done.stderr.decode()


def same_infoset(one, other):
    """Compares by another road than the tools': the canonical form of both documents."""
    try:
        return canonicalize(one, with_comments=True) == canonicalize(other, with_comments=True)
    except ParseError:
        return False


def trips(tests):
    for name, (document, parts) in TRIPS.items():
        data = bytes_of(document)
        tests.check("xml2pyx: " + name, call("xml2pyx", data), lines(parts))
        back = call("pyx2xml", lines(parts))
        if name != "a deep document":
            tests.check("same infoset: " + name, same_infoset(data, back), True)
        tests.check("and again: " + name, call("xml2pyx", back), lines(parts))


def others(tests):
    for name, (document, parts) in DROPPED.items():
        tests.check("--drop-doctype: " + name, call("xml2pyx", bytes_of(document), True), lines(parts))
    for name, (document, flag, reason) in BAD_XML.items():
        tests.check("xml2pyx refuses: " + name, call("xml2pyx", bytes_of(document), flag), reason)
    for name, (data, reason) in BAD_PYX.items():
        tests.check("pyx2xml refuses: " + name, call("pyx2xml", data)[: len(reason)], reason)
    for name, (data, flag, document) in WRITTEN.items():
        tests.check("pyx2xml writes: " + name, call("pyx2xml", data, flag), document.encode())


def examples(tests):
    """The examples' lines are those of their XML, with modules named by their lines. Only a source that is refused has none; one
    that is missing has neither."""
    for folder in sorted(glob.glob(os.path.join(EXAMPLES, "*", ""))):
        modules = sorted(os.path.basename(xml) for xml in glob.glob(folder + "*.xsl") if not xml.endswith("/sheet.xsl"))
        pairs = [(xml, xml.replace(".xsl", ".pyx")) for xml in ["sheet.xsl", *modules]]
        for xml, pyx in (*pairs, ("source.xml", "source.pyx")):
            if not os.path.exists(folder + pyx):
                tests.holds(folder + pyx + " is not there, nor its XML", not os.path.exists(folder + xml))
                continue
            with open(folder + pyx, "rb") as file:
                lines_there = file.read()
            if os.path.exists(folder + xml):
                with open(folder + xml, "rb") as file:
                    made = call("xml2pyx", file.read())
                    if xml.endswith(".xsl"):
                        made = re.sub(rb"(?m)^(Ahref .*)\.xsl$", rb"\1.pyx", made)
                    tests.check(folder + pyx, made, lines_there)
            else:
                refused = isinstance(call("pyx2xml", lines_there), str)
                tests.check(folder + pyx + " is refused, as it has no XML", refused, True)


def implementations():
    """What a test of the commands sets in the environment: Python, and C where that can be had."""
    return [PYTHON] + ([{}] if all(map(native.program, MODULES)) else [])


def programs(tests):
    """The tools as commands: streams, arguments, status, what is left of a refused document, any locale."""
    xml = "<a b='é'>" + "\U0001f600\n" * 50000 + "</a>"
    pyx = "(a\nAb é\n-" + "\U0001f600\\n" * 50000 + "\n)a\n"
    locale = {"LC_ALL": "C", "PYTHONUTF8": "0", "PYTHONIOENCODING": "ascii"}
    for env in (PYTHON, {**PYTHON, **locale}, *implementations()[1:]):
        tests.check("xml2pyx as a command", run("xml2pyx", xml.encode(), env=env), (0, pyx.encode(), ""))
        status, out, err = run("pyx2xml", pyx.encode(), env=env)
        tests.check("pyx2xml as a command", (status, err), (0, ""))
        tests.check("what it wrote", call("xml2pyx", out), pyx.encode())
    for env in implementations():
        for tool, data, place in (
            ("xml2pyx", b"<a>\n" + b"<b/>\n" * 50000 + b"</b>", "50002:3: mismatched tag"),
            ("pyx2xml", b"(a\n" + b"(b\n)b\n" * 50000 + b"(\n", "100002: BadName: ''"),
        ):
            status, out, err = run(tool, data, env=env)
            tests.check(tool + " refuses", (status, err), (1, f"{tool}: standard input:{place}\n"))
            tests.holds(tool + " gives no whole output", is_no_document(tool, out))
        arguments(tests, env)


def arguments(tests, env):
    """A missing file, a missing place for the output, flags, the table of lines."""
    for tool in MODULES:
        wanted = (1, b"", f"{tool}: no/such/file: No such file or directory\n")
        tests.check(tool + " without its file", run(tool, b"", "no/such/file", env=env), wanted)
        tests.check(tool + " with two files", run(tool, b"", "a", "b", env=env)[0], 2)
    doctype = b"<!DOCTYPE a><a/>"
    tests.check("--drop-doctype", run("xml2pyx", doctype, "--drop-doctype", env=env), (0, b"(a\n)a\n", ""))
    tests.check("--fragment", run("pyx2xml", b"-x\n", "--fragment", env=env), (0, b"x", ""))
    tests.check("both flags", run("pyx2xml", b"", "--fragment", "--result", env=env)[0], 2)
    wanted = (1, b"", "pyx2xml: standard input:2: XML has no such character\n")
    tests.check("--fragment refused", run("pyx2xml", b"-x\n-\x01\n", "--fragment", env=env), wanted)
    table_of_lines(tests, env)


def table_of_lines(tests, env):
    """--lines as a command."""
    document, rows = PLACES
    with tempfile.TemporaryDirectory() as folder:
        path = os.path.join(folder, "table")
        wanted = (0, lines(text for text, _ in rows), "")
        tests.check("--lines", run("xml2pyx", document.encode(), "--lines", path, env=env), wanted)
        with open(path, encoding="ascii") as table:
            tests.check("the table", [int(row) for row in table], [place for _, place in rows])
        tests.check("--lines of what is refused", run("xml2pyx", b"<a>", "--lines", os.path.join(folder, "no"), env=env)[0], 1)
        tests.holds("no table of what is refused", not os.path.exists(os.path.join(folder, "no")))


def places(tests):
    """The table of lines: one row for each line, the same lines as without it, and where they come from."""
    for name, (document, parts) in TRIPS.items():
        out, table = io.BytesIO(), array("Q")
        MODULES["xml2pyx"].Converter(out, False, table).convert(io.BytesIO(bytes_of(document)))
        tests.check("lines with a table: " + name, (out.getvalue(), len(table)), (lines(parts), len(parts)))


def random_trips(tests):
    chance = random.Random(1)
    for number in range(300):
        made = lines(["C1", "?p q"] + random_element(chance, 5, {"": ""}) + ["C2"])
        tests.check(f"random {number}", call("xml2pyx", bytes_of(call("pyx2xml", made))), made)


def is_no_document(tool, output):
    """Whether what a converter wrote is refused by the one that reads it."""
    other = "pyx2xml" if tool == "xml2pyx" else "xml2pyx"
    return isinstance(call(other, output), str)


def run_native(tool, data, flag=False):
    """One run of a program in C on a pipe: the output, or the place and reason of its refusal."""
    return answer(tool, subprocess.run(command(tool, native.program(tool), flag), input=data, capture_output=True, check=False))


def run_on_file(tool, program, data, flag=False):
    """The same on a file, for any program."""
    with tempfile.TemporaryFile() as source:
        source.write(data)
        source.seek(0)
        return answer(tool, subprocess.run(command(tool, program, flag), stdin=source, capture_output=True, check=False))


def command(tool, program, flag):
    return [program, *([FLAGS[tool]] if flag else [])]


def answer(tool, done):
    """What a run gave: the output, or the place and reason of its refusal."""
    if done.returncode == 0:
        return done.stdout
    said = re.fullmatch(tool + r": standard input:(.*)\n", done.stderr.decode(), re.DOTALL)
    if done.returncode != 1 or not said or (done.stdout and not is_no_document(tool, done.stdout)):
        return f"status {done.returncode}, {done.stderr}, {done.stdout}"
    return said[1]


def damage(chance, data):
    """The same bytes with some of them cut off, changed, left out or added."""
    data, parts = bytearray(data), [b":", b"&x;", b"&#1;", b' p:x="1"', b"<!DOCTYPE a>", b"<?p:q?>", b"\xc2\xb7"]
    parts += [b' xmlns:p=""', b"]]>", b"\n)a\n", b"\nAp:x 1\n", b"\nC--\n", b"\xef\xbf\xbf", b"\n(a\n", b"\nAx 1\nAx 2\n"]
    for _ in range(chance.choice([1, 1, 1, 2, 5])):
        at, length = chance.randrange(len(data) + 1), chance.randrange(4)
        kind = chance.randrange(4)
        if kind == 0:
            del data[at:]
        elif kind == 1:
            data[at : at + 1] = bytes([chance.choice(b"<>&;:\"'= /x!?-]()A\\\n\x00\xff\xc3a1")])
        elif kind == 2:
            del data[at : at + length]
        else:
            data[at:at] = chance.choice(parts)
    return bytes(data)


def samples_of(tool):
    """Of a converter all inputs that the tests have, with a name."""
    if tool == "pyx2xml":
        rows = [(name, lines(parts)) for name, (_, parts) in TRIPS.items()]
        rows += [(name, row[0]) for name, row in (*BAD_PYX.items(), *WRITTEN.items())]
    else:
        rows = [(name, bytes_of(row[0])) for table in (TRIPS, DROPPED, BAD_XML) for name, row in table.items()]
    patterns = ["*.pyx"] if tool == "pyx2xml" else ["*.xsl", "*.xml"]
    for path in (path for pattern in patterns for path in sorted(glob.glob(os.path.join(EXAMPLES, "*", pattern)))):
        with open(path, "rb") as file:
            rows.append((path, file.read()))
    return rows


def random_samples(tool, count):
    """Of a converter so many random inputs, and as many damaged ones."""
    chance = random.Random(2)
    small = [data for _, data in samples_of(tool) if len(data) < 5000]
    for number in range(count):
        data = lines(["C1", "?p q"] + random_element(chance, 4, {"": ""}) + ["C2"])
        data = data if tool == "pyx2xml" else bytes_of(call("pyx2xml", data))
        yield f"random {number}", data
        yield f"damaged {number}", damage(chance, data if number % 2 else chance.choice(small))


def compare_natives(tests):
    """The programs in C give what Python gives: the same lines, or the same places and reasons."""
    if len(implementations()) == 1:
        print("the converters in C are left out: there is no C compiler with expat")
        return
    with concurrent.futures.ThreadPoolExecutor(os.cpu_count()) as pool:
        for tool in MODULES:
            rows = [(name, data, flag) for name, data in samples_of(tool) for flag in (False, True)]
            rows += [(name, data, number % 4 == 3) for number, (name, data) in enumerate(random_samples(tool, 500))]
            found = list(pool.map(lambda row: run_native(tool, *row[1:]), rows))
            for (name, data, flag), got in zip(rows, found):
                wanted = call(tool, data, flag)
                tests.check(f"{tool} in C: {name}", got, wanted)
            fast_paths(tests, pool, tool, rows)
    native_tables(tests)
    native_memory(tests)
    native_builds(tests)


def fast_paths(tests, pool, tool, rows):
    """On a file, where plain documents have a path of their own, the answers are byte for byte those on a pipe; they are the same
    again where a tag or a line seldom ends in the buffer that it begins in."""
    rows = [*rows, *unplain_ends(tool)]
    wanted = list(pool.map(lambda row: run_native(tool, *row[1:]), rows))
    with tempfile.TemporaryDirectory() as folder:
        small = os.path.join(folder, tool)
        tests.holds(f"{tool} with small buffers", native.build(tool, small, SMALL[tool]))
        for program in (native.program(tool), small):
            found = pool.map(lambda row: run_on_file(tool, program, *row[1:]), rows)
            for (name, _, _), got, right in zip(rows, found, wanted):
                tests.check(f"{program} on a file: {name}", got, right)


def unplain_ends(tool):
    """Documents of many buffers that are plain as far as their ends."""
    begin, row, ends = {
        "xml2pyx": (b"<a>", b"<b c='d'>e&amp;\n</b>\n", (b"</a>", b"<\xc3\xa9/></a>", b"&x;</a>", b"</b>", b"\xff</a>", b"</a><a/>", b"")),
        "pyx2xml": (b"(a\n", b"(b\nAc d\n-e&\\n\n)b\n", (b")a\n", b"(\xc3\xa9\n)\xc3\xa9\n)a\n", b"-\\x\n)a\n", b")b\n", b")a\n(a\n)a\n", b"")),
    }[tool]
    return [(f"many rows before {end}", begin + 20000 * row + end, False) for end in ends]


def native_tables(tests):
    """The table of lines of the program in C is that of Python, on all samples."""
    with tempfile.TemporaryDirectory() as folder:
        path = os.path.join(folder, "table")
        for name, data in samples_of("xml2pyx"):
            table = array("Q")
            try:
                xml2pyx.Converter(io.BytesIO(), True, table).convert(io.BytesIO(data))
            except xml2pyx.Refused:
                continue
            command = [native.program("xml2pyx"), "--drop-doctype", "--lines", path]
            subprocess.run(command, input=data, capture_output=True, check=True)
            with open(path, encoding="ascii") as rows:
                tests.check("table in C: " + name, [int(row) for row in rows], list(table))


def native_memory(tests):
    """Long documents need no more memory than short ones, and one that is refused is reported."""
    limit = lambda: resource.setrlimit(resource.RLIMIT_AS, (24 << 20, 24 << 20))
    rows = "<b c='d'>e</b>\n" * 1000000
    xml = ("<a>" + rows + "</a>").encode()
    for tool, data in (("xml2pyx", xml), ("pyx2xml", b"(a\n-" + b"x\\n" * 8000000 + b"\n" + b"-\n" * 1000000 + b")a\n")):
        done = subprocess.run([native.program(tool)], input=data, capture_output=True, preexec_fn=limit, check=False)
        tests.check(tool + " in C has bounded memory", (done.returncode, done.stderr), (0, b""))
    long = b"x" * (32 << 20)
    for tool, data in (("xml2pyx", b"<a b='" + long + b"'/>"), ("pyx2xml", b"(a\nAb " + long + b"\n)a\n")):
        done = subprocess.run([native.program(tool)], input=data, capture_output=True, preexec_fn=limit, check=False)
        tests.check(tool + " in C out of memory", done.returncode, 1)
        tests.holds(tool + " says so", done.stderr.lower().rstrip().endswith((b"out of memory", b"cannot allocate memory")))


def native_builds(tests):
    """Programs are built where that is needed, by several runs at once too, and only from sources that compile."""
    with tempfile.TemporaryDirectory() as folder, mock.patch.object(native, "SOURCES", folder):
        for path in glob.glob(os.path.join(TOOLS, "c", "*.[ch]")):
            shutil.copy(path, folder)
        with mock.patch.dict(os.environ, {"CC": "no-such-compiler"}):
            tests.check("no compiler", native.program("pyx2xml"), None)
        with concurrent.futures.ThreadPoolExecutor(3) as pool:
            paths = list(pool.map(native.program, ["pyx2xml"] * 3))
        tests.check("built at once", paths, [os.path.join(folder, "out", "pyx2xml")] * 3)
        tests.check("and it runs", run_native("pyx2xml", b"(a\n)a\n"), b"<a/>\n")
        tests.check("nothing else is left", os.listdir(os.path.join(folder, "out")), ["pyx2xml"])
        made = os.path.getmtime(paths[0])
        os.utime(os.path.join(folder, "names.h"), (made + 2, made + 2))
        with mock.patch.object(native, "build", return_value=True) as build:
            native.program("pyx2xml")
        tests.check("built again for a newer source", build.call_count, 1)
        with open(os.path.join(folder, "names.c"), "a", encoding="ascii") as source:
            source.write("no C")
        tests.check("not built from a bad source", native.program("pyx2xml"), None)


def test(tests):
    trips(tests)
    others(tests)
    examples(tests)
    programs(tests)
    places(tests)
    random_trips(tests)
    compare_natives(tests)
