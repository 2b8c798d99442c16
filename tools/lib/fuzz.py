"""Fuzzes the converters in C, with the sanitizers for addresses and undefined behaviour: what `tools/test --fuzz` does.

Inputs begin as the examples and the samples of the tests. libFuzzer changes them where clang has it, else afl++; beside that, or
alone, this module changes them at random and compares what C and Python give: the same status, bytes, reason and table, and back
again the same lines. What is found is kept in tools/c/out/fuzz/found, and the inputs that reach new code for the next run.
"""

import contextlib
import glob
import hashlib
import io
import itertools
import os
import random
import shutil
import struct
import subprocess
import sys
import tempfile
import time
from array import array
from multiprocessing import Process

from lib import native
from lib.converter_tests import MODULES, SMALL, call, damage, samples_of

FOLDER = os.path.join(native.SOURCES, "out", "fuzz")
FOUND = os.path.join(FOLDER, "found")
TABLE = "/dev/fd/100"
# Of each converter the lists of options with which it is called.
CALLS = {
    "xml2pyx": [[], ["--drop-doctype"], ["--drop-doctype", "--lines", TABLE]],
    "pyx2xml": [
        [], ["--fragment"], ["--result"], ["--method=html", "--encoding=ISO-8859-1"],
        ["--indent=yes", "--encoding=US-ASCII", "--cdata-section-elements=a {u}b", "--doctype-system=s"],
        ["--method=xml", "--encoding=UTF-16", "--omit-xml-declaration=yes"],
    ],
}
ENDS = {"xml2pyx": r"\n", "pyx2xml": r"\n>"}
SANITIZERS = "address,undefined"
MOST_BYTES = 4096
TOKENS = [b"<!DOCTYPE a [", b"<!ENTITY e '", b"<!ATTLIST a b CDATA 'c'>", b"<![CDATA[", b"]]>", b"<!--", b"-->", b"<?p ", b"?>", b"&#10;"]
TOKENS += [b"&amp;", b"&e;", b' xmlns=""', b' xmlns:p="u"', b"p:", b"xml:", b"<?xml version='1.0' encoding='", b"ISO-8859-1", b"standalone='no'"]
TOKENS += [b"\n(a", b"\n)a\n", b"\nAb c\n", b"\nAxmlns:p u\n", b"\nAp:b c\n", b"\n-\\n\n", b"\nC", b"\n?p q\n", b"\\r", b"\xef\xbb\xbf", b"\xff\xfe"]


def build(tool, kind, *flags, compiler=None):
    """A converter with the harness (c/fuzz.c) and the sanitizers: its path, or None."""
    calls = ",".join("{" + ",".join([f'"{option}"' for option in options] + ["NULL"]) + "}" for options in CALLS[tool])
    more = ["-g", "-O1", "-fno-sanitize-recover=all", "-Dmain=converter_main", f"-DCALLS={calls}", f'-DENDS="{ENDS[tool]}"']
    path = os.path.join(FOLDER, f"{tool}-{kind}")
    source = os.path.join(native.SOURCES, "fuzz.c")
    is_new = native.is_new(path) and os.path.getmtime(path) >= os.path.getmtime(__file__)
    return path if is_new or native.build(tool, path, [*more, *flags, source], compiler) else None


def keep(tool, data):
    """Keeps an input that was found: its path."""
    os.makedirs(FOUND, exist_ok=True)
    path = os.path.join(FOUND, f"{tool}-{hashlib.sha256(data).hexdigest()[:12]}")
    with open(path, "wb") as file:
        file.write(data)
    return path


class Server:
    """A converter that answers one input after the other."""

    def __init__(self, tool, program):
        self.tool, self.program, self.errors = tool, program, tempfile.TemporaryFile()
        self.process = subprocess.Popen([program], stdin=subprocess.PIPE, stdout=subprocess.PIPE, stderr=self.errors)

    def read(self):
        (length,) = struct.unpack("=I", self.process.stdout.read(4))
        return self.process.stdout.read(length)

    def ask(self, data):
        """Of each call what comes: the output or the reason, and the table. None: the converter has ended."""
        made = []
        try:
            self.process.stdin.write(struct.pack("=I", len(data)) + data)
            self.process.stdin.flush()
            for _ in CALLS[self.tool]:
                status, out, said, table = self.process.stdout.read(1)[0], self.read(), self.read(), self.read()
                reason = said.decode(errors="replace").removeprefix(f"{self.tool}: standard input:").removesuffix("\n")
                made.append((reason if status else out, table))
            return made
        except (OSError, IndexError, struct.error):
            return None

    def end(self):
        """Ends it: what it said on standard error."""
        with contextlib.suppress(OSError):
            self.process.stdin.close()
        self.process.wait()
        self.process.stdout.close()
        self.errors.seek(0)
        return self.errors.read().decode(errors="replace")


def by_python(tool, options, data):
    """What Python gives for a call: the output or the reason, and the table."""
    module, table, out = MODULES[tool], array("Q"), io.BytesIO()
    said = dict(option[2:].split("=") for option in options if "=" in option)
    flag = any(option in ("--drop-doctype", "--fragment") for option in options)
    more = said if said or "--result" in options else table if TABLE in options else None
    try:
        module.Converter(out, flag, more).convert(io.BytesIO(data))
    except module.Refused as fault:
        return str(fault), b""
    return out.getvalue(), "".join(f"{place}\n" for place in table).encode()


def difference(tool, data, got):
    """How the answers of C differ from those of Python, or how lines do not come back the same; None where all is well."""
    for options, other in zip(CALLS[tool], got):
        one = by_python(tool, options, data)
        if one != other:
            return f"{' '.join([tool, *options])}: C gives {other!r:.300}, Python {one!r:.300}"
    lines = got[1][0]
    if tool == "xml2pyx" and isinstance(lines, bytes):
        back = call("pyx2xml", lines)
        if isinstance(back, str) or call("xml2pyx", back) != lines:
            return f"there and back: {lines!r:.300} becomes {back!r:.300}"
    return None


def inputs_of(tool, chance):
    """Random inputs without end: of what is kept from run to run some, damaged or joined."""
    seeds = [data for _, data in samples_of(tool) if len(data) <= 4 * MOST_BYTES]
    yield from seeds
    corpus = os.path.join(FOLDER, tool)
    for number in itertools.count():
        if number % 5000 == 0:
            names = [entry.path for entry in os.scandir(corpus)] if os.path.isdir(corpus) else []
        data = chance.choice(seeds)
        if names and number % 4:
            with contextlib.suppress(FileNotFoundError), open(chance.choice(names), "rb") as file:  # libFuzzer may have replaced it
                data = file.read()
        yield data if chance.randrange(8) == 0 else changed(chance, data, seeds)


def changed(chance, data, seeds):
    """An input with some of its bytes changed, tokens put in, or a part of another one."""
    kind = chance.randrange(4)
    if kind == 0:
        other, at = chance.choice(seeds), chance.randrange(len(data) + 1)
        begin = chance.randrange(len(other) + 1)
        data = data[:at] + other[begin : begin + chance.randrange(200)] + data[at:]
    elif kind == 1:
        for _ in range(chance.randrange(1, 4)):
            at = chance.randrange(len(data) + 1)
            data = data[:at] + chance.choice(TOKENS) + data[at + chance.choice((0, 0, 1, 5)) :]
    return data if kind == 1 else damage(chance, data)


def compare(tool, program, until):
    """Compares C and Python until a time: ends with 1 where something was found."""
    chance, count = random.Random(), 0
    server = Server(tool, program)
    for data in inputs_of(tool, chance):
        if time.time() > until:
            break
        got, count = server.ask(data), count + 1
        said = server.end() if got is None else difference(tool, data, got)
        if said:
            print(f"fuzz: {keep(tool, data)}: {said[:3000]}", flush=True)
            os._exit(1)
    print(f"fuzz: {tool}: {count} inputs the same in C and Python", flush=True)
    server.end()


def run_libfuzzer(tool, program, seconds):
    """Runs libFuzzer until a time: whether nothing was found."""
    corpus = os.path.join(FOLDER, tool)
    os.makedirs(corpus, exist_ok=True)
    os.makedirs(FOUND, exist_ok=True)
    with tempfile.TemporaryDirectory() as folder:
        write_seeds(tool, folder)
        tokens = os.path.join(folder, "tokens")
        with open(tokens, "w", encoding="ascii") as file:
            file.writelines('"' + "".join(f"\\x{byte:02x}" for byte in token) + '"\n' for token in TOKENS)
        command = [program, f"-max_total_time={seconds}", f"-max_len={MOST_BYTES}", "-timeout=30", f"-dict={tokens}", "-verbosity=0"]
        command += ["-print_final_stats=1", f"-artifact_prefix={os.path.join(FOUND, tool)}-", corpus, os.path.join(folder, "seeds")]
        done = subprocess.run(command, capture_output=True, text=True, errors="replace", check=False)
    if done.returncode:
        print(f"fuzz: {tool}: {done.stderr[-3000:]}\nfuzz: the input is in {FOUND}", flush=True)
        os._exit(1)
    counts = [line.split()[-1] for line in done.stderr.splitlines() if "executed_units" in line]
    print(f"fuzz: {tool}: {' '.join(counts)} inputs by libFuzzer without a fault", flush=True)


def run_afl(tool, program, seconds):
    """Runs afl++ until a time, as libFuzzer."""
    with tempfile.TemporaryDirectory() as folder:
        write_seeds(tool, folder)
        made = os.path.join(folder, "made")
        settings = {"AFL_SKIP_CPUFREQ": "1", "AFL_I_DONT_CARE_ABOUT_MISSING_CRASHES": "1", "AFL_NO_UI": "1"}
        command = ["afl-fuzz", "-V", str(seconds), "-m", "none", "-i", os.path.join(folder, "seeds"), "-o", made, "--", program]
        done = subprocess.run(command, capture_output=True, text=True, env={**os.environ, **settings}, check=False)
        crashes = os.path.join(made, "default", "crashes")
        found = [entry.path for entry in os.scandir(crashes) if entry.name.startswith("id")] if os.path.isdir(crashes) else None
        for path in found or ():
            with open(path, "rb") as file:
                print(f"fuzz: {keep(tool, file.read())}: {tool} ends by a fault", flush=True)
    if found is None:
        print(f"fuzz: {tool}: {done.stdout[-1000:]}{done.stderr[-1000:]}", flush=True)
    if found or found is None:
        os._exit(1)
    print(f"fuzz: {tool}: {seconds} s of afl++ without a fault", flush=True)


def write_seeds(tool, folder):
    """The examples and samples that are short, as files."""
    os.mkdir(os.path.join(folder, "seeds"))
    for number, (_, data) in enumerate(samples_of(tool)):
        if len(data) <= MOST_BYTES:
            with open(os.path.join(folder, "seeds", str(number)), "wb") as file:
                file.write(data)


def fuzzers(tool):
    """What looks for faults of a converter: functions with a program; the first is the comparison with Python."""
    sanitized = f"-fsanitize={SANITIZERS}"
    server = build(tool, "server", sanitized, "-DIS_SERVER") or build(tool, "server", sanitized, "-DIS_SERVER", compiler="clang")
    made = [(compare, server)] if server else []
    fuzzer = build(tool, "libfuzzer", *SMALL[tool], "-fsanitize=fuzzer," + SANITIZERS, compiler="clang") if shutil.which("clang") else None
    if fuzzer:
        return [*made, (run_libfuzzer, fuzzer)]
    if shutil.which("afl-fuzz") and shutil.which("afl-cc"):
        path = os.path.join(FOLDER, tool + "-afl")
        flags = [*SMALL[tool], sanitized, "-fno-sanitize-recover=all", "-g"]
        if native.build(tool, path, flags, "afl-cc"):
            made.append((run_afl, path))
    return made


def use_system_python():
    """Goes on with the system's own Python, if there is one: it has the expat that the converters in C have, where others may have
    one with other faults."""
    paths = [path for path in sorted(glob.glob("/usr/bin/python3.[1-9][0-9]")) if os.access(path, os.X_OK)]
    if paths and os.path.realpath(sys.executable) not in paths:
        os.execv(paths[0], [paths[0], *sys.argv])


def test(tests, seconds):
    """Fuzzes both converters for so many seconds, all at once."""
    processes = []
    for tool in MODULES:
        found = fuzzers(tool)
        tests.holds(f"{tool} with sanitizers and the harness is built", bool(found))
        for function, program in found:
            limit = time.time() + seconds if function is compare else seconds
            processes.append((f"{tool}: {function.__name__}", Process(target=function, args=(tool, program, limit))))
    for _, process in processes:
        process.start()
    for name, process in processes:
        process.join()
        tests.check(name, process.exitcode, 0)
