"""Tests tools/install: in an empty prefix, by a user who is not root where that can be had, with a program in the place of the real one."""

import os
import re
import shutil
import subprocess
import sys
import tempfile

from lib import installing, native
from lib.converter_tests import TOOLS
from lib.shell_tests import STAND_IN

TOP = os.path.realpath(os.path.join(TOOLS, ".."))
NOBODY = 65534
SHEET = '<x:stylesheet xmlns:x="http://www.w3.org/1999/XSL/Transform" version="1.0">{}</x:stylesheet>'
COMMANDS = ["xslt", *installing.COMMANDS]


def other_user():
    """What runs a command as a user who is not root, where that is root and the other can read the checkout."""
    if os.geteuid() != 0 or not shutil.which("setpriv"):
        return []
    command = ["setpriv", f"--reuid={NOBODY}", f"--regid={NOBODY}", "--clear-groups"]
    can_read = subprocess.run([*command, "test", "-r", os.path.join(TOOLS, "install")], capture_output=True, check=False)
    return command if can_read.returncode == 0 else []


class Place:
    """A folder in which commands are run, and a prefix in it."""

    def __init__(self, folder):
        self.folder, self.user = folder, other_user()
        self.prefix = os.path.join(folder, "a prefix")
        os.chmod(folder, 0o755)
        if self.user:
            os.chown(folder, NOBODY, NOBODY)

    def run(self, *command, path=None):
        """Runs a command: status, what it wrote, and what it reported."""
        env = {**os.environ, "HOME": self.folder, "PATH": os.pathsep.join([*([path] if path else []), os.environ["PATH"]])}
        done = subprocess.run([*self.user, *command], cwd=self.folder, capture_output=True, text=True, env=env, check=False)
        return done.returncode, done.stdout, done.stderr

    def install(self, *arguments):
        return self.run(os.path.join(TOOLS, "install"), "--prefix", self.prefix, *arguments)

    def write(self, name, text):
        with open(os.path.join(self.folder, name), "w", encoding="utf-8") as file:
            file.write(text)

    def files(self):
        """All files below the prefix."""
        return sorted(os.path.relpath(os.path.join(folder, name), self.prefix) for folder, _, names in os.walk(self.prefix) for name in names)


def installation(tests, place):
    """What is installed is what the list says, and none of it knows the checkout."""
    status, said, errors = place.install("--program", STAND_IN)
    tests.check("install", (status, errors), (0, ""))
    tests.holds("install names the commands", all(name in said for name in COMMANDS))
    tests.check("the list of what is installed", sorted(installing.installed(place.prefix)[0]), place.files())
    for name in place.files():
        with open(os.path.join(place.prefix, name), "rb") as file:
            tests.holds(f"installed {name} knows no checkout", TOP.encode() not in file.read())
    with open(os.path.join(TOP, "xslt"), encoding="utf-8") as file:
        settings = re.search("(?m)^export GLIBC_TUNABLES.*$", file.read())[0]
    tests.holds("the installed program has the memory settings", settings in installing.WRAPPER.splitlines())


def commands(tests, place):
    """The commands do what they do in the checkout, and leave nothing."""
    before, path = place.files(), os.path.join(place.prefix, "bin")
    place.write("s.xsl", SHEET.format(""))
    place.write("bad.xsl", SHEET.format('<x:param name="$no"/>'))
    place.write("r.xml", "<r>é\n<i/></r>")
    program = ["--program", STAND_IN]
    for name, *arguments in (["xslt-xml", *program, "s.xsl", "r.xml"], ["check-xml", *program, "bad.xsl"], ["xml2pyx", "r.xml"]):
        wanted = place.run(os.path.join(TOOLS, name), *arguments)
        got = place.run(name, *[each for each in arguments if each not in program], path=path)
        tests.check(f"installed {name}", got[:2], wanted[:2])
        tests.check(f"installed {name} reports", got[2].partition("fault")[1:], wanted[2].partition("fault")[1:])
    for name in installing.COMMANDS:
        status, said, errors = place.run(name, "--help", path=path)
        tests.check(f"installed {name} --help", (status, errors, "usage: tools/" in said), (0, "", False))
    status, said, _ = place.run("xslt-xml", "--version", path=path)
    tests.holds("the installed version", said.startswith(f"xslt-xml of {place.run(os.path.join(TOOLS, 'xslt-xml'), '--version')[1].split()[2]}"))
    tests.check("the installed program", place.run("xslt", "no", path=path)[0], 2)
    subprocess.run([os.path.join(path, "xslt-xml"), "s.xsl", "r.xml"], cwd=place.folder, capture_output=True, check=False)
    tests.check("no run leaves a file", place.files(), before)
    modules = [name[len("lib/xslt/tools/") : -3].replace("/", ".") for name in before if re.match(r"lib/xslt/tools/lib/.*\.py$", name)]
    env = {**os.environ, "PYTHONPATH": os.path.join(place.prefix, "lib/xslt/tools")}
    command = [sys.executable, "-B", "-c", "import " + ", ".join(modules)]
    done = subprocess.run(command, cwd=place.folder, env=env, capture_output=True, text=True, check=False)
    tests.check("all installed modules can be had", (done.returncode, done.stderr), (0, ""))


def removal(tests, place):
    """A second installation replaces the first; what is removed is what was installed."""
    before = place.files()
    tests.check("install again", (place.install("--program", STAND_IN)[0], place.files()), (0, before))
    own = os.path.join(place.prefix, "lib/xslt/tools/own")
    with open(own, "w", encoding="ascii") as file:
        file.write("no file of the installation\n")
    uninstall = os.path.join(place.prefix, "lib/xslt/tools/install")
    tests.check("the installed copy installs nothing", place.run(uninstall)[0], 1)
    tests.check("--uninstall", place.run(uninstall, "--uninstall")[::2], (0, ""))
    tests.check("what is left", place.files(), ["lib/xslt/tools/own"])
    os.remove(own)
    shutil.rmtree(place.prefix)
    tests.check("--uninstall of nothing", place.install("--uninstall")[0], 1)
    place.install("--program", STAND_IN)
    tests.check("--uninstall from the checkout", place.install("--uninstall")[::2], (0, ""))
    tests.holds("nothing is left", not os.path.exists(place.prefix))


def refusals(tests, place):
    """What is refused installs nothing."""
    for arguments in (["--program", "no/such"], ["--other"], ["--prefix"], ["--program", os.path.join(TOP, "README.md")]):
        tests.check(f"install {arguments}", place.install(*arguments)[0], 1)
    tests.holds("and nothing is there", not os.path.exists(place.prefix))
    for path, said in (("bin/xslt", "was not installed by this command"), ("share", "File exists"), ("share/man/man1/xslt.1/x", "is there")):
        foreign = os.path.join(place.prefix, path)
        os.makedirs(os.path.dirname(foreign))
        with open(foreign, "w", encoding="ascii") as file:
            file.write("foreign\n")
        if place.user:
            subprocess.run(["chown", "-R", str(NOBODY), place.prefix], check=True)
        status, _, errors = place.install("--program", STAND_IN)
        tests.check(f"install where {path} is", (status, said in errors, place.files()), (1, True, [path]))
        shutil.rmtree(place.prefix)
    if place.user:
        os.makedirs(os.path.join(place.prefix, "share"))
        os.chown(place.prefix, NOBODY, NOBODY)  # and not the folder in it
        status, _, errors = place.install("--program", STAND_IN)
        tests.check("install where a folder is another's", (status, "Permission denied" in errors), (1, True))
        tests.check("and nothing is left", [os.listdir(place.prefix), place.files()], [["share"], []])
        shutil.rmtree(place.prefix)


def unbuilt(tests):
    """Without a program, or with one that is older than its sources, the command is named that builds it; without a compiler the
    converters are Python's."""
    with tempfile.TemporaryDirectory() as folder:
        os.makedirs(os.path.join(folder, "crates/xslt/src"))
        shutil.copytree(TOOLS, os.path.join(folder, "tools"), ignore=shutil.ignore_patterns("out"))
        command = [os.path.join(folder, "tools/install"), "--prefix", os.path.join(folder, "made")]
        done = subprocess.run(command, capture_output=True, text=True, check=False)
        tests.check("install of what is not built", (done.returncode, installing.BUILDS in done.stderr), (1, True))
        os.makedirs(os.path.join(folder, "crates/xslt/out"))
        for name, time in (("crates.txt", 1000), ("crates/xslt/out/xslt", 1000), ("crates/xslt/src/main.rt", 2000)):
            with open(os.path.join(folder, name), "w", encoding="ascii") as file:
                file.write("xslt: xs_engine\n")
            os.utime(file.name, (time, time))
        done = subprocess.run(command, capture_output=True, text=True, check=False)
        tests.check("install of what is older", (done.returncode, "older than crates/xslt/src/main.rt" in done.stderr), (1, True))
        os.makedirs(os.path.join(folder, "docs"))
        shutil.copy(os.path.join(TOP, "docs/LANGUAGE.md"), os.path.join(folder, "docs"))
        env = {**os.environ, "CC": "no-such-compiler"}
        done = subprocess.run([*command, "--program", STAND_IN], capture_output=True, text=True, env=env, check=False)
        tests.check("install without a compiler", (done.returncode, "xml2pyx, pyx2xml: in Python" in done.stdout), (0, True))
        done = subprocess.run([os.path.join(folder, "made/bin/xml2pyx")], input=b"<a/>", capture_output=True, check=False)
        tests.check("and its converter", (done.returncode, done.stdout), (0, b"(a\n)a\n"))


def manuals(tests):
    """The manual pages are right to groff, and have the options and statuses."""
    pages = {}
    for name in installing.MANUALS:
        path = os.path.join(TOOLS, "man", name)
        with open(path, encoding="utf-8") as file:
            pages[name] = file.read().replace("\\-", "-")
        if shutil.which("groff"):
            done = subprocess.run(["groff", "-man", "-Tutf8", "-ww", path], capture_output=True, text=True, check=False)
            tests.check(f"groff reads {name}", (done.returncode, done.stderr), (0, ""))
    with open(os.path.join(TOOLS, "xslt-xml"), encoding="utf-8") as file:
        options = re.findall(r"(?m)^  (?:-\w \w+, )?(--[\w-]+)(?:, (--[\w-]+))?", file.read())
    for option in {each for pair in options for each in pair if each}:
        tests.holds(f"xslt-xml.1 has {option}", option in pages["xslt-xml.1"])
    with open(os.path.join(TOP, "docs/LANGUAGE.md"), encoding="utf-8") as file:
        language = file.read()
    for option in re.findall(r"\[(--[\w-]+)", language):
        tests.holds(f"xslt.1 has {option}", option in pages["xslt.1"])
    for status in re.findall(r"(?m)^- \*\*(\d) \w+\*\*: ", language.partition("## Statuses")[2].partition("\n## ")[0]):
        tests.holds(f"xslt.1 has status {status}", f".B {status}\n" in pages["xslt.1"])


def test(tests):
    for name in native.PROGRAMS:
        native.program(name)  # compiled once, not at each installation
    with tempfile.TemporaryDirectory() as folder:
        place = Place(folder)
        installation(tests, place)
        commands(tests, place)
        removal(tests, place)
        refusals(tests, place)
    unbuilt(tests)
    manuals(tests)
