"""Tests of the scripts that prove, build and run: xslt, tools/build-time, tools/prove, tools/first-look and tools/edits."""

import contextlib
import os
import re
import shutil
import signal
import subprocess
import tempfile

from lib.safety_tests import is_running, wait_for

TOP = os.path.join(os.path.dirname(os.path.abspath(__file__)), "..", "..")

# Stands for the kit's `rt`: proves in no time, gives a program that prints its arguments, and tries one in its place.
RT = r"""#!/bin/sh
case "$1" in
doc) echo "$KIT/START-HERE.md" ;;
lib) mkdir -p "out/rlib/$(basename "$PWD").rlib" ;;
all)
    [ -z "$WAITS" ] || { echo $$ >"$WAITS"; exec sleep 1000; }
    [ -z "$NO_ALL" ] || exit 2
    for crate in low high; do
        mkdir -p "../$crate/out/rlib"
        sleep 1.5
        mkdir "../$crate/out/rlib/$crate.rlib"
        echo "== $crate"
        echo "logic=proved functions=1"
    done
    printf '== xslt\n== summary\nlow: ok\n'
    ;;
run)
    [ -z "$NO_RUN" ] || { echo "low is not proved"; exit 1; }
    mkdir -p out
    printf '#!/bin/sh\necho "$@"\nexit 4\n' >out/xslt
    chmod +x out/xslt
    ;;
try)
    shift
    while [ "$1" = --data ]; do
        echo "data ${2%%=*} $(cat "${2#*=}")" >&2
        shift 2
    done
    [ -z "$NO_RUN" ] || { echo "error" >&2; exit 1; }
    shift
    [ -z "$WAITS" ] || { echo $$ >"$WAITS"; exec sleep 1000; }
    [ -z "$PAGE" ] || { printf '(page\n)page\n'; printf 'message %s\nrun=ended status=0 runners=1\n' "$*" >&2; exit; }
    echo "$@"
    printf 'message\nchecked: ended status=3\nrun=ended status=3 runners=1 proved=no\n' >&2
    ;;
esac
"""
# A kit whose functions tools/prove can call, with the first one beside it: each crate takes a while.
PYTHON_RT = r"""#!/usr/bin/env python3
import concurrent.futures, os, sys, time, types

class Crate:
    def __init__(self, name, *below):
        self.name, self.lower = name, below
    def below(self):
        return list(self.lower)
    def count(self, pattern):
        return len(self.name)
    def is_built(self):
        return os.path.isdir(f"../{self.name}/out/rlib/{self.name}.rlib")
    def front_end(self):
        sys.exit("a pass over all sources")
    def build_rlib(self, flags, anew):
        os.makedirs(f"../{self.name}/out/rlib")
        time.sleep(1.5)
        os.mkdir(f"../{self.name}/out/rlib/{self.name}.rlib")
        return 0
    def check(self, flags):
        return 0

def crates_below(folder):
    low = Crate("low")
    high = Crate("high", low)
    return [low, high, Crate("xslt", low, high)]

def every(verb, at_once):
    crates, runs = crates_below(""), {}
    status = [crate.front_end() for crate in crates[-1:]]
    def work(crate):
        status = [runs[each.name].result() for each in crate.below()]
        flags = []
        call = crate.check if crate.name == "xslt" else lambda flags: crate.build_rlib(flags, anew=False)
        status = call(flags)
        print(f"== {crate.name}\n{verb} of {at_once}", flush=True)
        return status
    with concurrent.futures.ThreadPoolExecutor(at_once) as pool:
        for crate in crates:
            runs[crate.name] = pool.submit(work, crate)
    return max(run.result() for run in runs.values())

rtlib = types.SimpleNamespace(Crate=Crate, crates_below=crates_below, every=every, guarded=list)
read_files = lambda crate: None
share_work = lambda is_alone: None
if __name__ == "__main__":
    os.execv(os.path.dirname(os.path.realpath(__file__)) + "/rt.sh", ["rt.sh", *sys.argv[1:]])
"""
# Stands for the kit's prover: it refuses a crate that holds `wrong`, cannot read one that holds `unreadable`, and knows a
# function `made` by its name alone.
RATTLE = r"""#!/bin/sh
verdict=logic
case "$*" in *"--only made::made"*) exit 2 ;; *--only*) verdict=only ;; esac
if grep -q unreadable src/lib.rt; then
    echo "src/lib.rt:1:1: error: \`x\`: it is not in scope"
elif cat src/*.rt | grep -q wrong; then
    echo 'note: src/lib.rt:7:1: it is not proved that the value is right (`returns`); what is known allows others'
else
    echo "$verdict=proved functions=1"
    exit 0
fi
echo "$verdict=not-proved"
exit 1
"""
EDIT = "file: src/lib.rt\nold: {}\nnew: {}\n"
REPOSITORY = {
    "crates.txt": "# a comment\nlow: arrayvec\nhigh: low\nabove: high\nxslt: high\n",
    "crates/low/src/lib.rt": "one two\n",
    "crates/high/src/lib.rt": "one two\n",
    "crates/high/src/made.rt": "pub fn made() -> u8\n    ensures { five }\n{\n    three\n}\n",
    "crates/high/must-fail/body.md": EDIT.replace("lib", "made").format("three", "wrong"),
    "crates/xslt/src/main.rt": "one two\n",
    "crates/high/must-fail/of_the_gate.edit": EDIT.format("two", "wrong"),
    "crates/high/must-fail/kept.md": EDIT.format("one", "wrong"),
    "crates/high/must-fail/README.md": "# A text\n\nold: one\n",
    "crates/low/must-fail/proved.md": EDIT.format("two", "three"),
    "crates/low/must-fail/refused.md": EDIT.format("two", "wrong"),
    "crates/low/must-fail/twice.md": EDIT.format("o", "wrong"),
    "crates/low/must-fail/unread.md": EDIT.format("two", "unreadable"),
    "examples/hello/sheet.pyx": "sheet",
    "examples/hello/source.pyx": "source",
    "mine/sheet.pyx": "Ahref parts/a.pyx\n",
    "mine/parts/a.pyx": "Ahref ../b.pyx\nAhref no.pyx\n",
    "mine/b.pyx": "Ahref sheet.pyx\n",
    "mine/source.pyx": "Ahref xslt\n",
    "mine/plain.pyx": "plain\n",
    "mine/sheet.xsl": '<x:stylesheet xmlns:x="http://www.w3.org/1999/XSL/Transform" version="1.0"><x:output method="html"/></x:stylesheet>',
    "mine/source.xml": "\n<r/>",
    "crates/low/README.md": "a text\n",
    "crates/above/src/lib.rt": "rows\n",
}
# What a script says, by its words and by what the kit lacks: the status, the result, and the lines on standard error.
BUILDS = "xslt: proving and building the program; from nothing that takes T"
LOOKS = ["first-look: nothing is proved here; ./xslt proves and builds the program, which takes T"]
LOOKS += ["first-look: compiling the program, which takes some two minutes"]
NOT_TRIED = "low/{}: NOT TRIED: {}"
KEPT_LOW = [
    "low: the crate: proved without an edit [0 s]",
    "low/proved: NOT REFUSED: the crate is still proved with it [0 s]",
    "low/refused: refused: src/lib.rt:7: the value is right (`returns`) [0 s]",
    NOT_TRIED.format("twice", "an old text is in src/lib.rt 2 times, and not once"),
    NOT_TRIED.format("unread", "the prover did not read it: src/lib.rt:1:1: error: `x`: it is not in scope [0 s]"),
]
KEPT_BODY = [
    "high: made: proved without an edit [0 s]",
    "high/body: refused: src/lib.rt:7: the value is right (`returns`) [0 s]",
]
KEPT_HIGH = [
    "high: the crate: proved without an edit [0 s]",
    "high/kept: refused: src/lib.rt:7: the value is right (`returns`) [0 s]",
]
SCRIPTS = {
    "xslt builds": (
        ["xslt", "a b", "c"], {}, 4, "a b c\n",
        [BUILDS, "xslt: proving low; 3 of 3 crates left", "xslt: proving high; 2 of 3 crates left", "xslt: building the program"],
    ),
    "xslt with a kit that proves sooner": (
        ["xslt", "a"], {"FORM": "python", "NO_ALL": "1"}, 4, "a\n",
        [BUILDS, "xslt: proving low; 3 of 3 crates left", "xslt: proving high; 2 of 3 crates left", "xslt: building the program"],
    ),
    "xslt with a kit that has changed": (
        ["xslt", "a"], {"FORM": "changed"}, 4, "a\n",
        [BUILDS, "xslt: proving low; 3 of 3 crates left", "xslt: proving high; 2 of 3 crates left", "xslt: building the program"],
    ),
    "xslt on XML, where nothing is built": (
        ["xslt", "--stats", "mine/sheet.xsl", "a b"], {}, 125, "",
        ["xslt: mine/sheet.xsl is XML, and this program reads PYX lines. This takes XML:"]
        + ["    /TOP/tools/xslt-xml --stats mine/sheet.xsl a\\ b"],
    ),
    "xslt with a kit that has no rt all": (["xslt", "a"], {"NO_ALL": "1"}, 4, "a\n", [BUILDS, "xslt: building the program"]),
    "xslt where a proof fails": (
        ["xslt", "a"], {"NO_ALL": "1", "NO_RUN": "1"}, 125, "", [BUILDS, "xslt: building the program", "low is not proved"],
    ),
    "first-look": (
        ["tools/first-look"], {}, 3, "examples/hello/sheet.pyx examples/hello/source.pyx\n",
        [*LOOKS, "data examples/hello/sheet.pyx sheet", "data examples/hello/source.pyx source", "message"],
    ),
    "first-look at files with modules": (
        ["tools/first-look", "mine/../mine/sheet.pyx", "mine/source.pyx"], {}, 3, "mine/sheet.pyx mine/source.pyx\n",
        [*LOOKS, "data mine/b.pyx Ahref sheet.pyx", "data mine/parts/a.pyx Ahref ../b.pyx", "Ahref no.pyx"]
        + ["data mine/sheet.pyx Ahref parts/a.pyx", "data mine/source.pyx Ahref xslt", "message"],
    ),
    "first-look at files from elsewhere": (
        ["tools/first-look", "/PLACE/mine/plain.pyx", "mine/../../outside.pyx"], {}, 3, "TOP/mine/plain.pyx PARENT/outside.pyx\n",
        [*LOOKS, "data TOP/mine/plain.pyx plain", "data PARENT/outside.pyx outside", "message"],
    ),
    "first-look at XML": (
        ["tools/first-look", "mine/sheet.xsl", "mine/source.xml"], {"PAGE": "1"}, 0, "<page></page>\n",
        [*LOOKS, "data 0.pyx (x:stylesheet", "Axmlns:x http://www.w3.org/1999/XSL/Transform", "Aversion 1.0", "(x:output", "Amethod html"]
        + [")x:output", ")x:stylesheet", "data source.pyx (r", ")r", "0.pyx source.pyx"],
    ),
    "first-look at XML and PYX": (
        ["tools/first-look", "mine/sheet.xsl", "mine/source.pyx"], {}, 125, "",
        ["first-look: one of mine/sheet.xsl and mine/source.pyx is XML, and one is PYX: tools/xml2pyx and tools/pyx2xml convert"],
    ),
    "first-look where nothing compiles": (
        ["tools/first-look"], {"NO_RUN": "1"}, 125, "",
        [*LOOKS, "data examples/hello/sheet.pyx sheet", "data examples/hello/source.pyx source", "error"]
        + ["first-look: the program could not be run"],
    ),
    "first-look without its file": (
        ["tools/first-look", "mine/sheet.pyx", "no.pyx"], {}, 125, "", ["first-look: there is no file no.pyx"],
    ),
    "edits": (
        ["tools/edits"], {}, 1, "\n".join([*KEPT_LOW, *KEPT_BODY, *KEPT_HIGH, "3 refused, 3 not refused"]) + "\n",
        ["low: building the library"],
    ),
    "edits of one crate": (
        ["tools/edits", "high"], {}, 0, "\n".join([*KEPT_BODY, *KEPT_HIGH, "2 refused, 0 not refused"]) + "\n",
        ["low: building the library"],
    ),
    "edits by checks of the whole crate": (
        ["tools/edits", "--whole", "high"], {}, 0,
        "\n".join([KEPT_HIGH[0], KEPT_BODY[1], KEPT_HIGH[1], "2 refused, 0 not refused"]) + "\n", ["low: building the library"],
    ),
    "edits of the gate too": (
        ["tools/edits", "--all", "--jobs", "2", "high"], {}, 0,
        "\n".join([*KEPT_BODY, *KEPT_HIGH, KEPT_HIGH[1].replace("kept", "of_the_gate"), "3 refused, 0 not refused"]) + "\n",
        ["low: building the library"],
    ),
    "edits of no crate": (["tools/edits", "no"], {}, 2, "", ["edits: crates.txt has no crate no"]),
}


@contextlib.contextmanager
def repository(env):
    """A small repository in a folder of its own, with a kit that proves in no time: the folder, and the environment."""
    with tempfile.TemporaryDirectory() as parent:
        folder = os.path.join(os.path.realpath(parent), "top")
        rt = {"kit/bin/rt": RT}
        if "FORM" in env:
            rt = {"kit/bin/rt.sh": RT, "kit/bin/rt": PYTHON_RT.replace("front_end", "other" if env["FORM"] == "changed" else "front_end")}
        for path, text in {**REPOSITORY, **rt, "kit/bin/rattle": RATTLE, "../outside.pyx": "outside\n"}.items():
            path = os.path.normpath(os.path.join(folder, path))
            os.makedirs(os.path.dirname(path), exist_ok=True)
            with open(path, "w", encoding="utf-8") as file:
                file.write(text)
            os.chmod(path, 0o755)
        os.makedirs(os.path.join(folder, "tools"))
        os.symlink(os.path.join(TOP, "tools", "lib"), os.path.join(folder, "tools", "lib"))
        for script in ("xslt", *(f"tools/{name}" for name in ("build-time", "prove", "first-look", "edits", "xslt-xml"))):
            shutil.copy(os.path.join(TOP, script), os.path.join(folder, script))
        yield folder, {**os.environ, **env, "KIT": folder + "/kit", "PATH": f"{folder}/kit/bin:{os.environ['PATH']}"}


def call(folder, env, words):
    """One run of a script: its status, the result, and the lines on standard error, without what differs from place to place."""
    words = [word.replace("/PLACE", folder) for word in words]
    done = subprocess.run([os.path.join(folder, words[0]), *words[1:]], cwd=folder, env=env, capture_output=True, check=False)
    parent = os.path.dirname(folder)
    out, err = (part.decode().replace(folder[1:], "TOP").replace(parent[1:], "PARENT") for part in (done.stdout, done.stderr))
    err = re.sub(r"takes \d+ minutes on \d+ processors?", "takes T", err).splitlines()
    return done.returncode, out, sorted(err) if words[0] == "tools/first-look" else err


def test(tests):
    """The scripts that prove, build and run, in a small repository and with a kit that proves in no time."""
    for name, (words, env, *wanted, said) in SCRIPTS.items():
        with repository(env) as (folder, env):
            tests.check(name, call(folder, env, words), (*wanted, sorted(said) if words[0] == "tools/first-look" else said))
    proved_sooner(tests)
    builds_again(tests)
    ends_by_signals(tests)


def proved_sooner(tests):
    """tools/prove calls the kit's functions, and gives one crate all processors where no other waits."""
    with repository({"FORM": "python", "NO_ALL": "1"}) as (folder, env):
        command = [os.path.join(folder, "tools", "prove"), "4"]
        done = subprocess.run(command, cwd=os.path.join(folder, "crates", "xslt"), env=env, capture_output=True, text=True, check=False)
        wanted = [line for name in ("low", "high", "xslt") for line in (f"prove: {name} begins", f"== {name}", "check of 3")]
        tests.check("prove", (done.returncode, done.stdout.splitlines(), done.stderr), (0, wanted, ""))


def builds_again(tests):
    """The program is built again where code, definitions or proofs below it are newer, and for nothing else."""
    with repository({"NO_ALL": "1"}) as (folder, env):
        program = os.path.join(folder, "crates", "xslt", "out", "xslt")
        is_built = lambda: call(folder, env, ["xslt", "a"])[2] == []
        tests.check("xslt is built", (is_built(), is_built()), (False, True))
        tests.check(
            "xslt on XML", call(folder, env, ["xslt", "mine/source.xml"]),
            (4, "mine/source.xml\n", ["xslt: mine/source.xml is XML, and this program reads PYX lines. This takes XML:", "    /TOP/tools/xslt-xml mine/source.xml"]),
        )
        for path, wanted in (
            ("crates/low/README.md", True), ("crates/above/src/lib.rt", True), ("crates/high/must-fail/of_the_gate.edit", True),
            ("crates/low/src/lib.rt", False), ("crates/xslt/src/main.rt", False), ("crates.txt", False),
        ):
            os.utime(os.path.join(folder, path), ns=(later := os.stat(program).st_mtime_ns + 10**9, later))
            tests.check(f"xslt is not built again for {path}" if wanted else f"xslt is built again for {path}", is_built(), wanted)
            os.utime(program, ns=(later, later))


def ends_by_signals(tests):
    """A signal ends a script with what it waits for, and no file is left."""
    for words in (["xslt", "a"], ["tools/first-look"], ["tools/first-look", "mine/sheet.xsl", "mine/source.xml"]):
        for number in (signal.SIGTERM, signal.SIGINT, signal.SIGHUP, signal.SIGQUIT):
            with repository({}) as (folder, env):
                os.mkdir(os.path.join(folder, "temporary"))
                waits = os.path.join(folder, "waits")
                env = {**env, "WAITS": waits, "TMPDIR": os.path.join(folder, "temporary")}
                script = subprocess.Popen([os.path.join(folder, words[0]), *words[1:]], cwd=folder, env=env, stderr=subprocess.DEVNULL)
                child = wait_for(waits)
                script.send_signal(number)
                got = script.wait(), is_running(child), os.listdir(env["TMPDIR"])
                tests.check(f"{words} and signal {number}", got, (128 + number, False, []))
