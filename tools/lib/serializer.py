"""The result of a stylesheet (XSLT 1.0, 16): its nodes are kept until it is known how they are written. XML that is plain is
written from then on as it comes, and all else at the end."""

from lib import html_names, write_xml
from lib.encoder import Encoder
from lib.nodes import Nodes
from lib.settings import Settings
from lib.target import NotEncoded, Target
from lib.write_html import HtmlWriter

SPACE = " \t\r\n"
LEGACY = "about:legacy-compat"


class Serializer(Target):
    """A target that writes as settings say."""

    def __init__(self, said):
        super().__init__()
        self.settings = Settings(said)
        self.encoder = Encoder(self.settings.encoding)
        self.nodes = Nodes()  # None: parts go to the pieces
        self.is_decided = False  # how it is written
        self.is_found_html = False  # by the first element
        self.has_element = False  # at the top
        self.has_other = False  # and there a second one, or a text that is not blank
        self.has_comment = False  # it is the last node at the top

    def taken(self):
        made = self.encoder.encode("".join(self.pieces))
        self.pieces.clear()
        return made

    def decide(self, is_html, is_empty):
        """Decides by the first element, or a text before it. What is plain goes to the pieces from now on."""
        self.is_decided = True
        self.is_found_html = self.settings.method is None and is_html
        if self.settings.method is None:
            self.settings.method = "html" if is_html else "xml"
        if self.settings.is_plain_xml():
            self.xml_writer().write_beginning(self.nodes.root, is_empty)
            self.nodes = None
            self.has_comment = False

    def xml_writer(self):
        return write_xml.XmlWriter(self.settings, self.encoder, self.pieces.append)

    def holds(self, *texts):
        """Tests that the encoding has all characters of what can have no references."""
        if not all(map(self.encoder.holds, texts)):
            raise NotEncoded

    def top(self, kind, text=""):
        """A node at the top."""
        if kind == "text" and text.strip(SPACE):
            self.has_other = True
            if not self.is_decided:
                self.decide(False, False)
        if kind == "element":
            self.has_other |= self.has_element
        self.has_element |= kind == "element"
        if self.has_comment and self.nodes is None and self.settings.indent != "no":
            self.pieces.append("\n")
        self.has_comment = kind == "comment"

    def start(self, name, is_top):
        if is_top:
            self.top("element")
        if self.nodes is None:
            super().start(name, is_top)
            return
        self.holds(name)
        self.nodes.start(name)

    def attribute(self, name, value):
        if self.nodes is None:
            super().attribute(name, value)
            return
        self.holds(name)
        self.nodes.attribute(name, value)

    def end_start(self, name, uri, local, is_empty, is_top):
        if self.nodes is None:
            super().end_start(name, uri, local, is_empty, is_top)
            return
        made = self.nodes.inner
        made.uri, made.is_cdata = uri, (uri, local) in self.settings.cdata
        if is_top and not self.is_decided:
            self.decide(not uri and html_names.lower(name) == "html", is_empty)

    def end(self, name, is_empty):
        if self.nodes is None:
            super().end(name, is_empty)
        else:
            self.nodes.end()

    def text(self, text, is_top):
        if is_top and text:
            self.top("text", text)
        if self.nodes is None:
            super().text(text, is_top)
            return
        inner = self.nodes.inner
        if self.settings.method == "html" and not inner.uri and html_names.lower(inner.name) in html_names.RAW:
            self.holds(text)
        self.nodes.text(text)

    def comment(self, text, is_top):
        if is_top:
            self.top("comment")
        if self.nodes is None:
            super().comment(text, is_top)
            return
        self.holds(text)
        self.nodes.add("comment", "", text)

    def instruction(self, name, text, is_top):
        if is_top:
            self.top("instruction")
        if self.nodes is None:
            super().instruction(name, text, is_top)
            return
        self.holds(name, text)
        self.nodes.add("instruction", name, text)

    def finish(self, _):
        is_document = self.has_element and not self.has_other
        if self.nodes is not None:
            if not self.nodes.root.children:
                return
            self.pieces.append(self.encoder.begin())
            if self.settings.method == "html":
                self.finish_html()
                return
            self.finish_xml(is_document)
        if is_document and self.settings.indent != "no":
            self.pieces.append("\n")

    def finish_xml(self, is_document):
        """Writes the nodes as XML, of a document with its type."""
        self.pieces.append(write_xml.declaration(self.settings))
        system = self.settings.get("doctype-system")
        writer = self.xml_writer()
        if is_document and system is not None:
            public = self.settings.get("doctype-public")
            writer.is_xhtml = not write_xml.XHTML_TYPES.isdisjoint({public, system})
            made = write_xml.doctype(self.first_name(), public, system)
            self.pieces.append(made + ("\n" if self.settings.indent != "no" else ""))
        writer.write(self.nodes.root)

    def finish_html(self):
        """Writes the nodes as HTML, with the document type that is asked for, or that of the version."""
        public, system = self.settings.get("doctype-public"), self.settings.get("doctype-system")
        version = html_names.DOCTYPES.get(html_names.lower(self.settings.get("version") or ""))
        is_asked = public is not None or system is not None
        if version and not is_asked:
            public, system = version
        if version or is_asked:
            name = self.first_name() if self.is_found_html else "html"
            self.pieces.append(write_xml.doctype(name, public, None if system == LEGACY else system) + "\n")
        HtmlWriter(self.settings, self.pieces.append).write(self.nodes.root)

    def first_name(self):
        return next(node.name for node in self.nodes.root.children if node.kind == "element")
