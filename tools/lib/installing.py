"""Installs the program and the tools, and removes them: what tools/install does."""

import fnmatch
import os
import py_compile
import re
import shutil
import sys
import tempfile

from lib import native
from lib.options import TOP
from lib.shell import version

BUILT = "crates/xslt/out/xslt"
BUILDS = "./xslt examples/hello/sheet.pyx examples/hello/source.pyx"

# What is installed, and where: this is the one list of it. Below lib/xslt it lies as in the repository.
HOME = "lib/xslt"
LIST = HOME + "/installed"
COMMANDS = ["xslt-xml", "check-xml", "xml2pyx", "pyx2xml"]  # with xslt they are in bin
MANUALS = ["xslt.1", "xslt-xml.1", "check-xml.1"]
DOCUMENTS = ["docs/LANGUAGE.md"]
# Modules of tools/lib that only tests need.
LEFT_OUT = ["*_tests.py", "samples.py", "stand_in.py", "fuzz.py"]

# The program with the memory settings of the repository's ./xslt.
WRAPPER = """\
#!/bin/sh
# Runs the program. Memory in large pages and steps of a megabyte, where the C library is glibc.
export GLIBC_TUNABLES=${GLIBC_TUNABLES:-glibc.malloc.hugetlb=1:glibc.malloc.top_pad=1048576}
exec "$(dirname "$(readlink -f "$0")")/program/xslt" "$@"
"""


class Refused(Exception):
    """Why nothing is done."""


def main(arguments, help_text):
    """The status of a run with these arguments."""
    try:
        if arguments in (["--help"], ["-h"]):
            print(help_text, end="")
            return 0
        options = read(arguments)
        prefix = os.path.abspath(options["--prefix"])
        if options["--uninstall"]:
            uninstall(prefix)
        else:
            install(prefix, options["--program"])
    except Refused as fault:
        print(f"install: {fault}", file=sys.stderr)
        return 1
    except OSError as fault:
        print(f"install: {fault.filename2 or fault.filename}: {fault.strerror}", file=sys.stderr)
        return 1
    return 0


def read(arguments):
    """The options, or what is wrong with them."""
    is_installed = os.path.exists(os.path.join(TOP, os.path.basename(LIST)))
    prefix = os.path.dirname(os.path.dirname(TOP)) if is_installed else "/usr/local"
    options, rest = {"--prefix": prefix, "--program": None, "--uninstall": False}, list(arguments)
    while rest:
        name, equals, value = rest.pop(0).partition("=")
        if name == "--uninstall" and not equals:
            options[name] = True
        elif name in ("--prefix", "--program"):
            options[name] = value if equals else rest.pop(0) if rest else ""
            if not options[name]:
                raise Refused(f"{name} needs a value")
        else:
            raise Refused(f"what is {name}? --help says what there is")
    if is_installed and not options["--uninstall"]:
        raise Refused("this copy is installed: it only does --uninstall")
    return options


def program_of(named):
    """The program that is to be installed."""
    if named:
        if not os.access(named, os.X_OK) or not os.path.isfile(named):
            raise Refused(f"{named} is no program")
        return named
    path = os.path.join(TOP, BUILT)
    if not os.path.exists(path):
        raise Refused(f"the program is not built; this proves and builds it: {BUILDS}")
    newer = newer_source(os.path.getmtime(path))
    if newer:
        raise Refused(f"the program is older than {newer}; this proves and builds it: {BUILDS}")
    return path


def crates_of_program():
    """The program's crate and all below it, by crates.txt."""
    with open(os.path.join(TOP, "crates.txt"), encoding="utf-8") as file:
        rows = [row.split(":") for row in file.read().splitlines() if row and row[0] != "#"]
    below = {row[0].split()[0]: row[1].split() if row[1:] else [] for row in rows}
    found, rest = set(), ["xslt"]
    while rest:
        name = rest.pop()
        rest += [each for each in below.get(name, ()) if each in below and each not in found]
        found.add(name)
    return sorted(found)


def newer_source(built):
    """A source of the program that is newer than a time, or None: as ./xslt finds it."""
    paths = ["crates.txt"]
    for crate in crates_of_program():
        for folder, folders, files in os.walk(os.path.join(TOP, "crates", crate)):
            folders[:] = [each for each in folders if each not in ("out", "must-fail")]
            paths += [os.path.relpath(os.path.join(folder, name), TOP) for name in files if name.endswith((".rt", ".antt"))]
    return next((path for path in paths if os.path.getmtime(os.path.join(TOP, path)) > built), None)


class Files:
    """What is to be installed: each file below a folder of its own as it will be below the prefix."""

    def __init__(self, stage):
        self.stage, self.paths = stage, []

    def place(self, path):
        """Where a file is made that will have this path."""
        self.paths.append(path)
        made = os.path.join(self.stage, path)
        os.makedirs(os.path.dirname(made), exist_ok=True)
        return made

    def copy(self, source, path, mode=0o644):
        shutil.copyfile(source, self.place(path))
        os.chmod(os.path.join(self.stage, path), mode)

    def write(self, path, text, mode=0o644):
        with open(self.place(path), "w", encoding="utf-8") as file:
            file.write(text)
        os.chmod(file.name, mode)

    def link(self, path, target):
        os.symlink(target, self.place(path))

    def copy_python(self, name, mode=0o644):
        """Copies a file of tools, in which the tools have their names as commands and write nothing beside themselves."""
        with open(os.path.join(TOP, "tools", name), encoding="utf-8") as file:
            text = file.read()
        text = re.sub(r"\btools/(xslt-xml|check-xml|xml2pyx|pyx2xml)\b", r"\1", text).replace("./xslt of the repository", "the installed xslt")
        text = re.sub(r"(?m)^sys\.pycache_prefix = .*$", "sys.dont_write_bytecode = True", text)
        self.write(f"{HOME}/tools/{name}", text, mode)

    def compile_python(self, name):
        """Compiles a module, so that it need not be at each run."""
        path = f"{HOME}/tools/{name}"
        base, ending = os.path.split(path)
        compiled = f"{base}/__pycache__/{ending.removesuffix('.py')}.{sys.implementation.cache_tag}.pyc"
        mode = py_compile.PycInvalidationMode.UNCHECKED_HASH
        py_compile.compile(os.path.join(self.stage, path), self.place(compiled), ending, invalidation_mode=mode)
        os.chmod(os.path.join(self.stage, compiled), 0o644)


def modules():
    """The modules of tools/lib that the tools need, as paths below tools."""
    found = []
    for folder, folders, files in os.walk(os.path.join(TOP, "tools", "lib")):
        folders[:] = sorted(each for each in folders if each != "__pycache__")
        names = [each for each in sorted(files) if each.endswith(".py") and not any(fnmatch.fnmatch(each, rule) for rule in LEFT_OUT)]
        found += [os.path.relpath(os.path.join(folder, name), os.path.join(TOP, "tools")) for name in names]
    return found


def make(files, program):
    """Makes all that is to be installed; the converters that are compiled."""
    files.copy(program, f"{HOME}/program/xslt", 0o755)
    files.write(f"{HOME}/xslt", WRAPPER, 0o755)
    files.link("bin/xslt", f"../{HOME}/xslt")
    files.write(f"{HOME}/version", version() + "\n")
    for name in [*COMMANDS, "install"]:
        files.copy_python(name, 0o755)
    for name in COMMANDS:
        files.link(f"bin/{name}", f"../{HOME}/tools/{name}")
    for name in modules():
        files.copy_python(name)
        files.compile_python(name)
    for name in MANUALS:
        files.copy(os.path.join(TOP, "tools", "man", name), f"share/man/man1/{name}")
    for name in DOCUMENTS:
        files.copy(os.path.join(TOP, name), f"share/doc/xslt/{os.path.basename(name)}")
    return [name for name in native.PROGRAMS if compile_converter(files, name)]


def compile_converter(files, name):
    """Takes a converter that the checkout has, or compiles one; whether that could be done."""
    built, path = os.path.join(native.SOURCES, "out", name), f"{HOME}/tools/c/out/{name}"
    if native.is_new(built):
        files.copy(built, path, 0o755)
        return True
    with tempfile.TemporaryDirectory() as folder:
        made = os.path.join(folder, name)
        is_built = native.build(name, made)
        if is_built:
            files.copy(made, path, 0o755)
    return is_built


def installed(prefix):
    """What was installed below a prefix: files, and the folders that were made for them."""
    try:
        with open(os.path.join(prefix, LIST), encoding="utf-8") as file:
            rows = [row.partition(" ") for row in file.read().splitlines()]
    except FileNotFoundError:
        return [], []
    return [path for kind, _, path in rows if kind == "file"], [path for kind, _, path in rows if kind == "folder"]


def folders_of(paths):
    """The folders that paths are in, outer ones first; the prefix is one."""
    found = {"."}
    for path in paths:
        while path := os.path.dirname(path):
            found.add(path)
    return sorted(found)


def install(prefix, named):
    """Makes all in a folder of its own, and then puts each file where it belongs; what was begun is taken back where that fails."""
    program = program_of(named)
    before, folders = installed(prefix)
    with tempfile.TemporaryDirectory() as stage:
        files = Files(stage)
        compiled = make(files, program)
        foreign = [path for path in [*files.paths, LIST] if path not in before and os.path.lexists(os.path.join(prefix, path))]
        if foreign:
            raise Refused(f"{os.path.join(prefix, foreign[0])} is there, and was not installed by this command; nothing was installed")
        made = [path for path in folders_of([*files.paths, LIST]) if not os.path.isdir(os.path.join(prefix, path))]
        folders = sorted({*folders, *made})
        try:
            put_all(files, prefix, before, folders)
        except OSError:
            if not before:
                take_away(prefix, [*files.paths, LIST], folders)
            raise
    report(prefix, compiled)


def put_all(files, prefix, before, folders):
    """Puts all files below the prefix, and first of all the list of them, with those that were there before."""
    for path in folders:
        os.makedirs(os.path.join(prefix, path), exist_ok=True)
        os.chmod(os.path.join(prefix, path), 0o755)
    put_list(files, prefix, {*files.paths, *before}, folders)
    for path in files.paths:
        put(os.path.join(files.stage, path), os.path.join(prefix, path))
    take_away(prefix, {*before} - {*files.paths, LIST}, folders)
    put_list(files, prefix, files.paths, folders)


def put_list(files, prefix, paths, folders):
    """Puts the list of what is installed."""
    made = os.path.join(files.stage, "list")
    with open(made, "w", encoding="utf-8") as file:
        file.writelines(f"file {path}\n" for path in sorted({*paths, LIST}))
        file.writelines(f"folder {path}\n" for path in folders)
    os.chmod(made, 0o644)
    put(made, os.path.join(prefix, LIST))


def put(made, path):
    """Puts a file in its place, whole or not at all."""
    beside = f"{path}.{os.getpid()}"
    try:
        shutil.copy(made, beside, follow_symlinks=False)
        os.replace(beside, path)
    finally:
        if os.path.lexists(beside):
            os.unlink(beside)


def report(prefix, compiled):
    """Says what was installed."""
    print(f"{', '.join(['xslt', *COMMANDS])} are in {os.path.join(prefix, 'bin')}, their manual pages in {os.path.join(prefix, 'share/man')}")
    if os.path.join(prefix, "bin") not in os.environ.get("PATH", "").split(os.pathsep):
        print(f"{os.path.join(prefix, 'bin')} is not in PATH")
    slow = [name for name in native.PROGRAMS if name not in compiled]
    if slow:
        print(f"{', '.join(slow)}: in Python, far slower, since there is no C compiler with expat (Debian: gcc, libexpat1-dev)")


def uninstall(prefix):
    """Removes the files that were installed below a prefix, and the folders that were made for them and have nothing else."""
    paths, folders = installed(prefix)
    if not paths:
        raise Refused(f"nothing is installed below {prefix}: there is no {os.path.join(prefix, LIST)}")
    take_away(prefix, [path for path in paths if path != LIST] + [LIST], folders)
    print(f"removed what was installed below {prefix}")


def take_away(prefix, paths, folders):
    """Removes files that may be gone already, and then of folders, inner ones first, those that have nothing in them."""
    for path in paths:
        if os.path.lexists(os.path.join(prefix, path)):
            os.unlink(os.path.join(prefix, path))
    for path in sorted(folders, reverse=True):
        folder = os.path.normpath(os.path.join(prefix, path))
        if os.path.isdir(folder) and not os.listdir(folder):
            os.rmdir(folder)
