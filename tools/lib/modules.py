"""The modules of a stylesheet: their lines for the program, and their elements for messages."""

import contextlib
import os
import re
from array import array

from lib import encoder, xml2pyx
from lib.declarations import declared
from lib.messages.vocabulary import BODY, WITH_BODY, XSLT

MOST_MODULES = 256
CDATA = "cdata-section-elements"
UNESCAPED = "disable-output-escaping"
ENCODING = re.compile(rb"""<\?xml[^>]*?encoding\s*=\s*["']([\w.\-]+)""")


class Element:
    """An element of a module, with the numbers of its PYX lines and its place in the XML."""

    def __init__(self, name, attributes, parent, row, place):
        self.name, self.attributes, self.parent = name, attributes, parent  # attributes are names and values
        self.row, self.last = row, 0  # of its start, which its attributes follow, and of its end
        self.line, self.column = place
        self.spaces = self.namespaces()
        self.space = self.spaces.get(name.rpartition(":")[0], "")  # the URI of its namespace
        self.children = []
        self.text_place = None  # of its first text other than white space: the line and the column
        self.is_after_text = False  # whether such a text of its parent comes before it

    def namespaces(self):
        """The namespaces in scope, by prefix."""
        outer = self.parent.spaces if self.parent else {"": "", "xml": ""}
        own = {declared(name): uri for name, uri in self.attributes if declared(name) is not None}
        return {**outer, **own} if own else outer

    @property
    def has_text(self):
        return self.text_place is not None

    @property
    def local(self):
        return self.name.rpartition(":")[2]

    @property
    def prefix(self):
        """The prefix with its colon, or nothing."""
        before, colon, _ = self.name.rpartition(":")
        return before + colon

    @property
    def is_xslt(self):
        return self.space == XSLT

    @property
    def is_instruction(self):
        """Whether it stands in a body, and something may come before it there."""
        parent = self.parent
        is_in_body = parent and parent.parent and (parent.local in WITH_BODY if parent.is_xslt else True)
        return bool(is_in_body) and (not self.is_xslt or self.local in BODY)

    def is_a(self, *locals_):
        return self.is_xslt and self.local in locals_

    def get(self, name):
        return next((value for each, value in self.attributes if each == name), None)

    def walk(self):
        """This element and all inside it, in document order."""
        todo = [self]
        while todo:
            element = todo.pop()
            yield element
            todo.extend(reversed(element.children))

    def ancestors(self):
        """The elements that it is in, from the inside."""
        element = self.parent
        while element:
            yield element
            element = element.parent


def said_by(output):
    """The attributes of an xsl:output, with expanded names of elements, {URI}LOCAL or LOCAL; the default namespace counts."""
    said = dict(output.attributes)
    if CDATA in said:
        names = [name.rpartition(":") for name in said[CDATA].split()]
        spaces = [output.spaces.get(prefix, "") for prefix, _, _ in names]
        said[CDATA] = " ".join(f"{{{uri}}}{local}" if uri else local for uri, (_, _, local) in zip(spaces, names))
    return said


class Reader(xml2pyx.Converter):
    """Converts one module and keeps its elements. What it mentions gets the name of the folder."""

    def __init__(self, out, drop_doctype, rename):
        super().__init__(out, drop_doctype, array("Q"))
        self.rename = rename
        self.root = self.inner = None
        self.unescaped = None  # the first element that asks for disable-output-escaping
        self.parts = []  # in their order: ("import" or "include", name, element), ("output", attributes, element)

    def start(self, name, attributes):
        pairs = list(zip(attributes[::2], attributes[1::2]))
        place = self.reader.CurrentLineNumber, self.reader.CurrentColumnNumber
        made = Element(name, pairs, self.inner, len(self.places) + 1, place)
        if self.inner:
            self.inner.children.append(made)
            made.is_after_text = self.inner.has_text
        self.root, self.inner = self.root or made, made
        if UNESCAPED in attributes and not self.unescaped and made.is_a("text", "value-of") and made.get(UNESCAPED) == "yes":
            self.unescaped = made
        super().start(name, self.with_mentions(made, attributes))

    def with_mentions(self, element, attributes):
        """Notes what an element says of other modules and of the result; the attributes for the program."""
        is_top = element.parent is not None and element.parent is self.root
        if not is_top or not self.root.is_a("stylesheet", "transform") or not element.is_xslt:
            return attributes
        if element.local == "output":
            self.parts.append(("output", said_by(element), element))
        for at in range(0, len(attributes), 2):
            if element.local in ("import", "include") and attributes[at] == "href":
                self.parts.append((element.local, attributes[at + 1], element))
                attributes[at + 1] = self.rename(attributes[at + 1])
        return attributes

    def text(self, text):
        super().text(text)
        before = text[: len(text) - len(text.lstrip(xml2pyx.SPACE))]
        if not self.inner.has_text and before != text:
            line, column = self.reader.CurrentLineNumber, self.reader.CurrentColumnNumber
            self.inner.text_place = line + before.count("\n"), column * ("\n" not in before) + len(before.rpartition("\n")[2])

    def end(self, name):
        super().end(name)
        self.inner.last = len(self.places)
        self.inner = self.inner.parent


class Module:
    """A module that was read, or why it could not be."""

    def __init__(self, xml, path, name, parts=()):
        self.xml, self.path, self.name = xml, path, name  # its name, its file, and its name in the folder
        self.root = self.unescaped = None
        self.places = array("Q")  # of the PYX lines the lines of XML
        self.parts = parts  # what it says of other modules and of the result
        self.rows = []  # the lines that are left, each with its number
        self.reason = ""  # why it is no XML, from line and column on
        self.missing = ""  # why it can't be read

    def line(self, row):
        """The line of XML that a PYX line comes from."""
        return self.places[row - 1] if 0 < row <= len(self.places) else row

    def element(self, row):
        """The element whose start is this PYX line."""
        return next((each for each in self.elements() if each.row == row), None)

    @contextlib.contextmanager
    def with_lines(self, folder, lines):
        """Gives the program other lines for a while."""
        path = os.path.join(folder.path, self.name)
        for rows in (lines, None):
            with open(path, "wb") as made:
                made.writelines(rows if rows is not None else (line for _, line in self.rows))
            if rows is not None:
                yield

    def elements(self):
        return self.root.walk() if self.root else iter(())

    def source_lines(self):
        """The lines of the XML."""
        try:
            with open(self.path, "rb") as file:
                data = file.read()
        except OSError:
            return []
        codec = xml2pyx.WIDE.get(data[:2])
        declared = ENCODING.match(data.removeprefix(b"\xef\xbb\xbf"))
        if not codec:
            codec = declared[1].decode() if declared else "utf-8"
        try:
            text = data.decode(codec, "replace")
        except LookupError:
            text = data.decode("latin-1")
        return re.split("\r\n|\r|\n", text.removeprefix("\ufeff"))


class Folder:
    """The folder with the PYX lines of a stylesheet. Each module has two names: in the folder a
    number, and outside that of its XML."""

    def __init__(self, path, drop_doctype):
        self.path = path
        self.drop_doctype = drop_doctype
        self.names = {}  # by XML names
        self.modules = {}  # by XML names, those that were read
        self.paths = {}  # of an XML name, where the file is if not there
        self.sheet = ""  # the XML name of the stylesheet
        self.has_too_many = False  # modules, so that the program refuses the stylesheet

    def name(self, xml):
        """The name in the folder of the module with this name."""
        return self.names.setdefault(xml, f"{len(self.names)}.pyx")

    def module(self, name):
        """The module with this name in the folder, if there was a mention of it."""
        xml = next((xml for xml, each in self.names.items() if each == name), None)
        return self.modules.get(xml) or (Module(xml, xml, name) if xml is not None else None)

    def add_module(self, xml):
        """Writes a module's lines, unless it can't be read; the program says so in its turn."""
        made = self.modules[xml] = Module(xml, self.paths.get(xml, xml), self.name(xml))
        path = os.path.join(self.path, made.name)
        try:
            with open(made.path, "rb") as source, open(path, "w+b") as lines:
                reader = Reader(lines, self.drop_doctype, lambda href: self.name(resolved(xml, href)))
                reader.convert(source)
                lines.seek(0)
                made.rows = list(enumerate(lines, 1))
        except OSError as fault:
            made.missing = fault.strerror
        except xml2pyx.Refused as fault:
            os.remove(path)
            made.reason = str(fault)
        else:
            made.root, made.places, made.parts = reader.root, reader.places, reader.parts
            made.unescaped = reader.unescaped

    def add_sheet(self, xml):
        """Writes the lines of a stylesheet with all modules, in the order in which they are read."""
        self.sheet = xml
        todo, count = [(xml, ())], 0
        while todo and count < MOST_MODULES:
            xml, above = todo.pop()
            count += 1
            if xml not in self.modules:
                self.add_module(xml)
            above += (xml,)
            mentioned = [resolved(xml, href) for kind, href, _ in self.modules[xml].parts if kind != "output"]
            todo.extend((other, above) for other in reversed(mentioned) if other not in above)
        self.has_too_many = bool(todo)

    def mention(self, xml):
        """The first module that mentions this one, and where."""
        for module in self.modules.values():
            for kind, href, element in module.parts:
                if kind != "output" and resolved(module.xml, href) == xml:
                    return module, element
        return None, None

    def asks_in_vain(self, said):
        """Whether a warning may be needed where the outputs say this."""
        is_unescaped = any(module.unescaped for module in self.modules.values())
        return is_unescaped or not encoder.is_known(said.get("encoding", "UTF-8"))

    def output(self, xml, above=()):
        """What the outputs of a stylesheet say of the result, by attribute: its own last word, or else its imports' (XSLT 1.0, 16); of
        cdata-section-elements all of them."""
        if self.has_too_many:
            return {}
        own, imports = self.outputs_of(xml, above)
        said, cdata = {}, []
        for attributes in [*(self.output(other, inside) for other, inside in imports), *own]:
            cdata += attributes.get(CDATA, "").split()
            said.update(attributes)
        return {**said, CDATA: " ".join(dict.fromkeys(cdata))} if cdata else said

    def outputs_of(self, xml, above):
        """The outputs of a module with what it includes, and what these import."""
        above += (xml,)
        own, first, later = [], [], []
        for kind, said, _ in self.modules[xml].parts if xml in self.modules else ():
            if kind == "output":
                own.append(said)
            elif kind == "import" and resolved(xml, said) not in above:
                first.append((resolved(xml, said), above))
            elif kind == "include" and resolved(xml, said) not in above:
                more, imports = self.outputs_of(resolved(xml, said), above)
                own += more
                later += imports
        return own, first + later


def resolved(xml, href):
    """The name of the module that a module mentions, as the program finds it."""
    return href if href.startswith("/") else xml[: xml.rfind("/") + 1] + href
