"""Tests that tools/xslt-xml replaces no input, ends with all that it has started, and says what fails, whatever stream is full or closed."""

import contextlib
import os
import pty
import shutil
import signal
import subprocess
import sys
import tempfile
import time

from lib.converter_tests import TOOLS, implementations
from lib.shell_tests import BODY, SHEET, STAND_IN, reported, run_xml, write_files

TOOL = [sys.executable, os.path.join(TOOLS, "xslt-xml"), "--program", STAND_IN]
INPUTS = {
    "s.xsl": SHEET.format('<x:include href="d/a.xsl"/>'), "d/a.xsl": SHEET.format('<x:import href="../b.xsl"/>'), "b.xsl": SHEET.format(""),
    "r.xml": "<r/>", "other/t.xml": "<t/>", "doc.pyx": "(d\n)d\n",
}
# Outputs that would replace an input: the arguments, and what is said.
REPLACED = {
    "the folder of the sources": (["--outdir", ".", "s.xsl", "r.xml"], "./r.xml is the source r.xml"),
    "the folder of one of the sources": (["--outdir", "other", "s.xsl", "r.xml", "other/t.xml"], "other/t.xml is the source other/t.xml"),
    "the stylesheet": (["-o", "s.xsl", "s.xsl", "r.xml"], "s.xsl is the stylesheet s.xsl"),
    "the stylesheet by another name": (["-o", "d/../s.xsl", "./s.xsl", "r.xml"], "d/../s.xsl is the stylesheet ./s.xsl"),
    "a module": (["-o", "d/a.xsl", "s.xsl", "r.xml"], "d/a.xsl is the module d/a.xsl"),
    "a module of a module": (["-o", "b.xsl", "s.xsl", "r.xml"], "b.xsl is the module d/../b.xsl"),
    "the source": (["-o", "r.xml", "s.xsl", "r.xml"], "r.xml is the source r.xml"),
    "the source by a link": (["-o", "link", "s.xsl", "r.xml"], "link is the source r.xml"),
    "the source by a hard link": (["-o", "hard", "s.xsl", "r.xml"], "hard is the source r.xml"),
    "the source by a link to its folder": (["-o", "here/r.xml", "s.xsl", "r.xml"], "here/r.xml is the source r.xml"),
    "a source that is a link": (["-o", "r.xml", "s.xsl", "link"], "r.xml is the source link"),
    "a document": (["-o", "doc.pyx", "s.xsl", "r.xml", "@d=doc.pyx"], "doc.pyx is the document doc.pyx"),
    "the program": (["-o", STAND_IN, "s.xsl", "r.xml"], f"{STAND_IN} is the program"),
}
TWICE = {
    "two sources of one name": ["--outdir", "made", "s.xsl", "r.xml", "other/../r.xml"],
    "two sources of one stem": ["--outdir", "made", "s.xsl", "r.xml", "r.txt"],
    "two outputs that are one file": ["--outdir", "links", "s.xsl", "r.xml", "other/t.xml"],
}
# What the streams are in a run, by redirections of a shell: the status, and what is reported.
STREAMS = {
    "a full output": ("s.xsl r.xml >/dev/full", 5, "xslt-xml: standard output: No space left on device\n"),
    "a closed output": ("s.xsl r.xml >&-", 5, "xslt-xml: standard output: Bad file descriptor\n"),
    "a closed output and input": ("s.xsl r.xml <&- >&-", 5, "xslt-xml: standard output: Bad file descriptor\n"),
    "closed errors": ("s.xsl r.xml 2>&-", 5, ""),
    "full errors": ("s.xsl r.xml 2>/dev/full", 5, ""),
    "all closed": ("s.xsl r.xml <&- >&- 2>&-", 5, ""),
    "a closed input that is not read": ("s.xsl r.xml <&-", 0, ""),
    "a closed input that is read": ("s.xsl - <&-", 2, "xslt-xml: standard input: Bad file descriptor\n"),
    "a closed output of a check": ("--check s.xsl >&-", 0, ""),
    "a closed output after a fault": ("s.xsl r.xml a=4 >&-", 4, ""),
    "a full output of --help": ("--help >/dev/full", 5, "xslt-xml: standard output: No space left on device\n"),
    "a closed output of --version": ("--version >&-", 5, "xslt-xml: standard output: Bad file descriptor\n"),
    "a full file": ("-o /dev/full s.xsl r.xml", 5, "xslt-xml: /dev/full: No space left on device\n"),
    "a descriptor that is not open": ("-o /dev/fd/9 s.xsl r.xml", 5, "xslt-xml: /dev/fd/9: Bad file descriptor\n"),
    "a program that is killed": ("s.xsl r.xml d=9", 6, "xslt-xml: the program was killed (signal 9), most likely since memory ran out\n"),
    "a program that a signal ends": ("s.xsl r.xml d=6", 125, "xslt-xml: the program was ended by signal 6 (SIGABRT)\n"),
    "a program that is out of memory": ("s.xsl r.xml a=6", 6, "xslt-xml: the program ran out of memory [6 NoMemory]\n"),
    "a text that has begun": ("s.xsl r.xml a=5 -o out", 5, "xslt-xml: the result, held in PLACE, could not be written\n"),
}
# Outputs that are no regular files, and what has the result.
THROUGH = {
    "standard output": ("-o /dev/stdout", "it"),
    "a descriptor": ("-o /dev/fd/3 3>>out", "out"),
    "errors": ("-o /dev/stderr", ""),
    "a device": ("-o /dev/null", ""),
    "a pipe with a name": ("-o pipe & cat pipe >out; wait $!", "out"),
}


def test(tests):
    nothing_is_replaced(tests)
    streams(tests)
    write_through(tests)
    signals(tests)
    signal_to_compiler(tests)
    out_of_memory(tests)
    pipes(tests)
    a_line_at_a_terminal(tests)


@contextlib.contextmanager
def inputs():
    """A folder with inputs, links to them, and outputs that are one file."""
    with tempfile.TemporaryDirectory() as folder:
        write_files(folder, {**INPUTS, "r.txt": "<r/>", "links/one": "old"})
        os.symlink("r.xml", os.path.join(folder, "link"))
        os.link(os.path.join(folder, "r.xml"), os.path.join(folder, "hard"))
        os.symlink(".", os.path.join(folder, "here"))
        for name in ("r.xml", "t.xml"):
            os.symlink("one", os.path.join(folder, "links", name))
        yield folder


def state(folder):
    """All files below a folder, what they hold and which they are."""
    found = {}
    for place, _, names in os.walk(folder):
        for name in names:
            path = os.path.join(place, name)
            with open(path, encoding="utf-8") as file:
                found[path] = file.read(), os.lstat(path).st_ino
    return found


def nothing_is_replaced(tests):
    """An output that is an input is refused before anything is run, and so are two of one name."""
    for name, (arguments, said) in REPLACED.items():
        with inputs() as folder:
            before = state(folder)
            got = run_xml(folder, "xslt-xml", "--program", STAND_IN, *arguments)
            wanted = 1, "", f"xslt-xml: {said}, which the run reads; nothing was run\n"
            tests.check(f"{name} is not replaced", (got, state(folder) == before), (wanted, True))
    for name, arguments in TWICE.items():
        with inputs() as folder:
            before = state(folder)
            status, result, said = run_xml(folder, "xslt-xml", "--program", STAND_IN, *arguments)
            got = status, result, "another source is written to" in said, state(folder) == before, os.path.exists(os.path.join(folder, "made"))
            tests.check(name, got, (1, "", True, True, False))
    for words, said in ((" >>r.xml", "standard output is the source r.xml"), (" - <s.xsl -o s.xsl", "s.xsl is standard input")):
        with inputs() as folder:
            before = state(folder)
            words = "s.xsl r.xml" + words if ">>" in words else words.replace("-o", "r.xml -o")
            got = in_shell(folder, words)
            tests.check(said, (got[0], said in got[2], state(folder) == before), (1, True, True))


def in_shell(folder, words, **how):
    """A run by a shell, which opens and closes the streams: its status, the result, and what is reported."""
    command = " ".join(f"'{each}'" for each in TOOL)
    done = subprocess.run(["bash", "-c", f"{command} {words}"], cwd=folder, capture_output=True, text=True, check=False, **how)
    return done.returncode, done.stdout, done.stderr


def streams(tests):
    """A stream that is full or closed is a status, without a traceback."""
    text = {**INPUTS, "s.xsl": BODY.format("")}
    for env in implementations():
        for name, (words, *wanted) in STREAMS.items():
            with tempfile.TemporaryDirectory() as folder:
                write_files(folder, text if "has begun" in name else INPUTS)
                status, _, said = in_shell(folder, words, env={**os.environ, **env})
                said = reported(said).replace(os.path.realpath(folder), "PLACE")
                tests.check(name, (status, said.replace(tempfile.gettempdir(), "PLACE")), tuple(wanted))
        with tempfile.TemporaryDirectory() as folder:
            write_files(folder, {**INPUTS, "r.xml": f"<r>{'<b/>' * 200000}</r>"})
            got = in_shell(folder, "s.xsl r.xml | head -c 5; exit ${PIPESTATUS[0]}", env={**os.environ, **env})
            tests.check("an output that is closed during the run", (*got[:2], reported(got[2])), (5, "<?xml", "xslt-xml: standard output: Broken pipe\n"))


def write_through(tests):
    """What is no regular file is written to where it stands."""
    wanted = '<?xml version="1.0" encoding="UTF-8"?>\n<r/>\n'
    for name, (words, place) in THROUGH.items():
        with tempfile.TemporaryDirectory() as folder:
            write_files(folder, {**INPUTS, "out": "old\n"})
            os.mkfifo(os.path.join(folder, "pipe"))
            status, result, said = in_shell(folder, f"s.xsl r.xml {words}")
            with open(os.path.join(folder, "out"), encoding="utf-8") as file:
                kept = file.read()
            expected = {"it": (wanted, "old\n"), "out": ("", wanted if "pipe" in words else "old\n" + wanted), "": ("", "old\n")}[place]
            tests.check(f"-o to {name}", (status, (result, kept), "stderr" not in words or said.endswith(wanted)), (0, expected, True))
    with tempfile.TemporaryDirectory() as folder:
        write_files(folder, {**INPUTS, "out": "old\n"})
        in_shell(folder, "s.xsl r.xml -o /dev/stdout >>out")
        with open(os.path.join(folder, "out"), encoding="utf-8") as file:
            tests.check("-o /dev/stdout that is a file", file.read(), "old\n" + wanted)


# A program that starts another one, and waits for it.
WAITING = "#!/bin/sh\nsleep 1000 &\necho $! >$PLACE/child\nwait\n"


def signals(tests):
    """A signal ends the tool with all that it has started, and no folder is left."""
    for number in (signal.SIGTERM, signal.SIGINT, signal.SIGHUP, signal.SIGQUIT):
        for is_killed in (False, True):
            with tempfile.TemporaryDirectory() as folder:
                waiting = WAITING.replace("sh\n", "sh\ntrap '' TERM\n") if is_killed else WAITING
                write_files(folder, {**INPUTS, "program": waiting, "made/old": "old", "temporary/old": "old"})
                os.chmod(os.path.join(folder, "program"), 0o755)
                env = {**os.environ, "PLACE": folder, "TMPDIR": os.path.join(folder, "temporary")}
                command = [*TOOL[:3], "./program", "-o", "made/out", "s.xsl", "r.xml"]
                tool = subprocess.Popen(command, cwd=folder, env=env, stderr=subprocess.PIPE)
                child = wait_for(os.path.join(folder, "child"))
                tool.send_signal(number)
                said = tool.communicate()[1].decode()
                left = [os.listdir(os.path.join(folder, each)) for each in ("made", "temporary")]
                got = tool.returncode, said, left, is_running(child)
                tests.check(f"signal {number}", got, (128 + number, "", [["old"], ["old"]], False))
                if number != signal.SIGTERM:
                    break
    with tempfile.TemporaryDirectory() as folder:
        write_files(folder, INPUTS)
        got = in_shell(folder, "s.xsl r.xml c=1 & sleep 0.5; kill -HUP $!; wait $!", preexec_fn=lambda: signal.signal(signal.SIGHUP, signal.SIG_IGN))
        tests.check("a signal that is ignored, as under nohup", got[0], 0)


def signal_to_compiler(tests):
    """A signal ends the compiler of the converters too, with what it has made."""
    with tempfile.TemporaryDirectory() as folder:
        tools, left = os.path.join(folder, "tools"), os.path.join(folder, "temporary")
        for part in ("c", "lib"):
            shutil.copytree(os.path.join(TOOLS, part), os.path.join(tools, part), ignore=shutil.ignore_patterns("out", "__pycache__"))
        shutil.copy(TOOL[1], tools)
        write_files(folder, {**INPUTS, "compiler": "#!/bin/sh\nsleep 1000 &\necho $! >$PLACE/child\nwait\n", "temporary/old": "old"})
        os.chmod(os.path.join(folder, "compiler"), 0o755)
        env = {**os.environ, "PLACE": folder, "TMPDIR": left, "CC": os.path.join(folder, "compiler"), "XSLT_CONVERTERS": ""}
        command = [sys.executable, os.path.join(tools, "xslt-xml"), "--program", STAND_IN, "s.xsl", "r.xml"]
        tool = subprocess.Popen(command, cwd=folder, env=env)
        child = wait_for(os.path.join(folder, "child"))
        tool.send_signal(signal.SIGTERM)
        got = tool.wait(), is_running(child), os.listdir(left), os.listdir(os.path.join(tools, "c", "out"))
        tests.check("a signal while the converters are built", (*got[:3], [name for name in got[3] if name != "python"]), (143, False, ["old"], []))


def wait_for(path):
    """The number that a file holds, when it is there."""
    for _ in range(6000):
        with contextlib.suppress(OSError, ValueError), open(path, encoding="ascii") as file:
            return int(file.read())
        time.sleep(0.01)
    return None


def is_running(number):
    """Whether a process runs, and has not ended within a while."""
    for _ in range(1000):
        try:
            with open(f"/proc/{number}/stat", encoding="ascii") as file:
                if file.read().rpartition(")")[2].split()[0] == "Z":
                    return False
        except OSError:
            return False
        time.sleep(0.01)
    return True


def out_of_memory(tests):
    """Memory that runs out in the tool itself is said, and a status."""
    code = "import sys; sys.path.insert(0, sys.argv[1]); from lib import shell; shell.Options = lambda _: [0] * (1 << 60); sys.exit(shell.main([], ''))"
    done = subprocess.run([sys.executable, "-B", "-c", code, TOOLS], capture_output=True, text=True, check=False)
    tests.check("out of memory", (done.returncode, done.stderr), (6, "xslt-xml: memory ran out\n"))


def pipes(tests):
    """A stylesheet and a source that are pipes are read once, and reported on as files are."""
    with tempfile.TemporaryDirectory() as folder:
        write_files(folder, {**INPUTS, "bad.xml": "<r>\n<b></r>", "no.xsl": BODY.format('<x:value-of select="$no"/>')})
        got = in_shell(folder, "--hints <(cat b.xsl) <(cat r.xml)")
        tests.check("a stylesheet and a source from pipes", got[:2], (0, '<?xml version="1.0" encoding="UTF-8"?>\n<r/>\n'))
        status, _, said = in_shell(folder, "<(cat no.xsl) <(cat r.xml)")
        wanted = "variable $no is not in scope [39 UnknownVariable]\n  <x:value-of select=\"$no\"/>\n                      ^\n"
        tests.check("a fault of a stylesheet from a pipe", (status, said.endswith(wanted)), (3, True))
        status, _, said = in_shell(folder, "b.xsl <(cat bad.xml)")
        tests.check("a bad source from a pipe", (status, said.splitlines()[-2:]), (2, ["  <b></r>", "       ^"]))


def a_line_at_a_terminal(tests):
    """A long run shows a line at a terminal, and takes it away."""
    for words, is_shown in ((["c=3"], True), (["--quiet", "c=3"], False)):
        with tempfile.TemporaryDirectory() as folder:
            write_files(folder, INPUTS)
            inner, outer = pty.openpty()
            tool = subprocess.Popen([*TOOL, "s.xsl", "r.xml", *words], cwd=folder, stdout=subprocess.DEVNULL, stderr=outer)
            os.close(outer)
            said = b""
            with contextlib.suppress(OSError):
                while part := os.read(inner, 1000):
                    said += part
            os.close(inner)
            line = b"\rxslt-xml: transforming r.xml: 4 bytes of 4 bytes read, "
            tests.check(f"a line {words}", (tool.wait(), line in said, said.endswith(b"\r\x1b[K")), (0, is_shown, is_shown))
