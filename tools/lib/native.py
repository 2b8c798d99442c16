"""The converters in C (tools/c): where they are, and how they are built on first use.

They are kept in tools/c/out, which git ignores, and built again when a source is newer.
Two runs may build at once: each compiles to a name of its own, and a whole program takes
the place of the old one. Where there is no C compiler, no expat (Debian: libexpat1-dev)
or no place to write, there is no program, and the converters in Python do the same more
slowly. The environment variable XSLT_CONVERTERS=python asks for these.
"""

import os

SOURCES = os.path.join(os.path.dirname(os.path.dirname(os.path.realpath(__file__))), "c")
FLAGS = ["-std=gnu11", "-O3"]
# Of each program its files and libraries.
PROGRAMS = {
    "xml2pyx": (
        ["xml2pyx", "charsets", "chunks", "declaration", "encodings", "escapes", "names", "namespaces", "opened", "output", "places"]
        + ["plain", "plain_xml", "references", "scopes", "streams", "table"],
        ["-lexpat"],
    ),
    "pyx2xml": (
        ["pyx2xml", "characters", "charsets", "elements", "encoder", "html_names", "lines", "names", "nodes", "opened", "output", "plain"]
        + ["plain_pyx", "refusal", "scopes", "serializer", "settings", "streams", "target", "write_html", "write_xml"],
        [],
    ),
}


def program(name):
    """The path of a converter in C, built where that is needed, or None."""
    if os.environ.get("XSLT_CONVERTERS") == "python":
        return None
    path = os.path.join(SOURCES, "out", name)
    try:
        return path if is_new(path) or build(name, path) else None
    except OSError:
        return None


def is_new(path):
    """Whether a program is there and no source is newer."""
    if not os.path.exists(path):
        return False
    with os.scandir(SOURCES) as entries:
        sources = [entry.stat().st_mtime for entry in entries if entry.name.endswith((".c", ".h"))]
    return max(sources, default=0) <= os.path.getmtime(path)


def build(name, path, flags=(), compiler=None):
    """Compiles a program, with more flags, by `cc` where no compiler is named; whether that succeeded."""
    import shlex  # most runs need none of these
    import shutil
    import subprocess
    import tempfile

    from lib import processes

    compiler = shlex.split(compiler or os.environ.get("CC", "cc"))
    if not compiler or not shutil.which(compiler[0]):
        return False
    files, libraries = PROGRAMS[name]
    sources = [os.path.join(SOURCES, file + ".c") for file in files]
    if not os.path.exists(sources[0]):  # an installed tool
        return False
    os.makedirs(os.path.dirname(path), exist_ok=True)
    with tempfile.TemporaryDirectory(dir=os.path.dirname(path)) as folder:
        made = os.path.join(folder, name)
        command = [*compiler, *FLAGS, *flags, "-o", made, *sources, *libraries]
        try:
            status, _, _ = processes.run(command, stdout=subprocess.DEVNULL, stderr=subprocess.DEVNULL)
        except BaseException:
            processes.end_all()  # the compiler's own parts too
            raise
        if status != 0:
            return False
        os.replace(made, path)
    return True

