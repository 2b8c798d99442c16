"""Tests what the converters, in C and in Python, leave of a document that is refused, which encodings they take, what they do where
standard streams are closed, and that no choice of names makes them slow."""

import encodings.aliases
import os
import re
import resource
import subprocess
import sys
import tempfile

from lib import converter_tests, native
from lib.converter_tests import TOOLS, call, implementations, is_no_document, run_native
from lib.encodings import SINGLE_BYTE, is_known

# A document that takes longer to write than buffers hold, and of each converter what it must not take long for.
LONG = b"<a>\n" + b"<b c='d'>e</b>\n" * 100000 + b"</a>"
SECONDS = 1.5


def declared_as(name, text=b""):
    """A document in an encoding of this name."""
    return b"<?xml version='1.0' encoding='" + name.encode() + b"'?><a>" + text + b"</a>"


def bytes_taken(name):
    """The bytes beyond ASCII that have a meaning in an encoding."""
    return bytes(byte for byte in range(0x80, 0x100) if bytes([byte]).decode(name, "replace") != "\ufffd")


def encodings_alike(tests):
    """Both take the same encodings with the same bytes, and refuse all others that Python knows."""
    with open(os.path.join(TOOLS, "c", "charsets.c"), encoding="ascii") as source:
        names = re.search(r"KNOWN\[\] = \{(.*?)\}", source.read(), re.DOTALL)[1]
    tests.check("one list of encodings", re.findall(r'"([^"]+)"', names), SINGLE_BYTE)
    for name in SINGLE_BYTE:
        taken = b"x" + bytes_taken(name)
        data = declared_as(name, taken)
        wanted = b"(a\n-" + taken.decode(name).encode() + b"\n)a\n"
        tests.check(f"the bytes of {name}", call("xml2pyx", data), wanted)
        if native.program("xml2pyx"):
            tests.check(f"the bytes of {name} in C", run_native("xml2pyx", data.replace(name.encode(), name.lower().encode())), wanted)
    others = {"utf8", "ISO88591", "windows-874", "macintosh", *encodings.aliases.aliases, *encodings.aliases.aliases.values()}
    for name in sorted(name for name in others if not is_known(name) and re.fullmatch(r"[A-Za-z][\w.-]*", name)):
        tests.check(f"no encoding {name}", call("xml2pyx", declared_as(name)), "1:31: unknown encoding")
        if native.program("xml2pyx"):
            tests.check(f"no encoding {name} in C", run_native("xml2pyx", declared_as(name)), "1:31: unknown encoding")


def ends_held(tests):
    """Whatever the buffer ends in, what was written of a document that is refused is none: of programs with small buffers."""
    if len(implementations()) == 1:
        return
    forms = {
        "xml2pyx": lambda size: b"<a>" + b"x" * size + b"</a><!--yy>\n>>--><b/>",
        "pyx2xml": lambda size: b"(a\n-" + b"x" * size + b"\n)a\nCy>>>>>>>>>>>>\nCz\n(b\n",
    }
    with tempfile.TemporaryDirectory() as folder:
        for tool, form in forms.items():
            small = os.path.join(folder, tool)
            tests.holds(f"{tool} with small buffers", native.build(tool, small, converter_tests.SMALL[tool]))
            room = int(converter_tests.SMALL[tool][0].rpartition("=")[2])
            for size in range(room - 60, room + 8):
                done = subprocess.run([small], input=form(size), capture_output=True, check=False)
                tests.check(f"{tool} refuses after {size}", done.returncode, 1)
                tests.holds(f"{tool} leaves no document after {size}", is_no_document(tool, done.stdout))


def closed_streams(tests):
    """Where a standard stream is closed, a run that needs it fails, and no other file takes its place."""
    with tempfile.TemporaryDirectory() as folder:
        source, table = os.path.join(folder, "a.xml"), os.path.join(folder, "table")
        with open(source, "wb") as file:
            file.write(LONG)
        for env in implementations():
            for shell, said in (
                ('"$1" "$0"/xml2pyx --lines "$3" "$2" >&-', "xml2pyx: standard output: Bad file descriptor\n"),
                ('"$1" "$0"/xml2pyx <&-', "xml2pyx: standard input: Bad file descriptor\n"),
                ("printf '(a\\n)a\\n' | " + '"$1" "$0"/pyx2xml >&-', "pyx2xml: standard output: Bad file descriptor\n"),
                ('"$1" "$0"/xml2pyx --lines "$3" "$2" >/dev/full', "xml2pyx: standard output: No space left on device\n"),
            ):
                command = ["sh", "-c", shell, TOOLS, sys.executable, source, table]
                done = subprocess.run(command, capture_output=True, text=True, env={**os.environ, **env}, check=False)
                tests.check(f"{shell} {env}", (done.returncode, done.stdout, done.stderr), (1, "", said))
                tests.holds(f"{shell} {env} writes no table", not os.path.exists(table))


def seconds_of(tool, data):
    """The processor time of a program in C."""
    before = resource.getrusage(resource.RUSAGE_CHILDREN)
    run_native(tool, data)
    after = resource.getrusage(resource.RUSAGE_CHILDREN)
    return after.ru_utime - before.ru_utime


def costs(tests):
    """Many prefixes, and long names of namespaces that many attributes are in, take no longer than short ones."""
    if len(implementations()) == 1:
        return
    long, numbers = "u" * 250000, range(40000)
    attributes = " ".join(f'{"ab"[number % 2]}:x{number}=""' for number in numbers)
    documents = {
        "long names of namespaces": f'<r xmlns:a="{long}" xmlns:b="{long}"><a {attributes}/></r>',
        "many prefixes": "<r " + " ".join(f'xmlns:p{number}="u"' for number in numbers) + "><p1:a/></r>",
        "many elements with prefixes of their own": "<r>" + "".join(f'<p{number}:a xmlns:p{number}="u"/>' for number in numbers) + "</r>",
    }
    for name, document in documents.items():
        lines = run_native("xml2pyx", document.encode())
        tests.holds(f"{name} in XML take less than {SECONDS} s", seconds_of("xml2pyx", document.encode()) < SECONDS)
        tests.holds(f"{name} in lines take less than {SECONDS} s", seconds_of("pyx2xml", lines) < SECONDS)


def test(tests):
    encodings_alike(tests)
    ends_held(tests)
    closed_streams(tests)
    costs(tests)
