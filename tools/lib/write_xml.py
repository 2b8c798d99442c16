"""The nodes of a result as XML (XSLT 1.0, 16.1)."""

import re

from lib.html_names import VOIDS, lower
from lib.nodes import XHTML

MOST_SPACES = 60
# What XML reads as something else, and its references.
REFERENCES = {"&": "&amp;", "<": "&lt;", ">": "&gt;", "\r": "&#13;", "\ufeff": "&#xFEFF;"}
VALUE_REFERENCES = {**REFERENCES, '"': "&quot;", "\t": "&#9;", "\n": "&#10;"}
TEXT = re.compile("[&<>\r\ufeff]")
VALUE = re.compile('[&<>\r\ufeff"\t\n]')


def as_text(text):
    return TEXT.sub(lambda found: REFERENCES[found[0]], text)


def as_value(text):
    return VALUE.sub(lambda found: VALUE_REFERENCES[found[0]], text)


def declaration(settings):
    """The XML declaration, where it is asked for."""
    if settings.get("omit-xml-declaration") == "yes":
        return ""
    standalone = settings.get("standalone")
    standalone = f' standalone="{standalone}"' if standalone else ""
    return f'<?xml version="1.0" encoding="{settings.encoding}"{standalone}?>\n'


def doctype(name, public, system):
    """A document type declaration."""
    ids = [" PUBLIC " + quoted(public)] if public is not None else [" SYSTEM"] if system is not None else []
    ids += [" " + quoted(system)] if system is not None else []
    return f"<!DOCTYPE {name}{''.join(ids)}>"


def quoted(text):
    return f"'{text}'" if '"' in text else f'"{text}"'


def start(node):
    """The start of an element, up to its attributes."""
    return f"<{node.name}" + "".join(f' {name}="{as_value(value)}"' for name, value in node.attributes)


def comment(node):
    return f"<!--{node.text}-->"


def instruction(node):
    return f"<?{node.name} {node.text}" if node.text else f"<?{node.name}"


def sections(encoder, text):
    """A text as CDATA sections, and references between them: `]]>` goes into two, and what the encoding does not have or a
    parser would change into none."""
    made = []
    for part in re.split("(\r|" + encoder.lacking.pattern + ")", text):
        if part == "\r" or not encoder.holds(part):
            made.append(as_text(part))
        elif part:
            made.append("<![CDATA[" + part.replace("]]>", "]]]]><![CDATA[>") + "]]>")
    return "".join(made)


XHTML_TYPES = {f"-//W3C//DTD XHTML 1.0 {kind}//EN" for kind in ("Strict", "Transitional", "Frameset")}
XHTML_TYPES |= {f"http://www.w3.org/TR/xhtml1/DTD/xhtml1-{kind}.dtd" for kind in ("strict", "transitional", "frameset")}


class XmlWriter:
    """Writes nodes one after the other."""

    def __init__(self, settings, encoder, put):
        self.settings, self.encoder, self.put = settings, encoder, put
        self.has_feeds = settings.indent != "no"
        self.is_xhtml = False  # the document type is one of XHTML, so that browsers may read it as HTML

    def write(self, root):
        """All nodes."""
        root.is_indented = self.settings.indent == "yes"
        todo = [iter(root.children)]
        opened = [root]
        while todo:
            node = next(todo[-1], None)
            if node is None:
                todo.pop()
                self.end(opened.pop(), len(todo) - 1)
            else:
                self.begin(node, len(todo) - 1)
                if node.children:
                    todo.append(iter(node.children))
                    opened.append(node)
                else:
                    self.after(node)

    def write_beginning(self, root, is_empty):
        """The nodes that come before the first element or text, and of the element the start tag."""
        self.put(declaration(self.settings))
        for node in root.children:
            if node.kind == "element":
                self.put(start(node) + ("/>" if is_empty else ">"))
            else:
                self.begin(node, 0)
                self.put("\n" if node.kind == "comment" and self.has_feeds else "")

    def begin(self, node, level):
        """Begins an element, or writes another node."""
        is_inside = node.parent.parent is not None
        if is_inside and node.parent.is_indented and (node.kind == "element" or not self.is_xhtml):
            self.put(" " * min(2 * level, MOST_SPACES))
        if node.kind == "comment":
            self.put(comment(node))
        elif node.kind == "instruction":
            self.put(instruction(node) + "?>")
        elif node.kind == "text":
            self.put(sections(self.encoder, node.text) if node.parent.is_cdata else as_text(node.text))
        else:
            node.is_indented = node.parent.is_indented and not node.has_text and not node.is_preserved
            self.put(start(node) + self.start_end(node))

    def start_end(self, node):
        """The end of a start tag. In XHTML only what has no end tag in HTML is an empty-element tag (XHTML 1.0, C.2 and C.3)."""
        if node.children:
            return ">\n" if node.is_indented else ">"
        if not self.is_xhtml:
            return "/>"
        is_void = lower(node.name) in VOIDS and node.uri in ("", XHTML)
        return " />" if is_void else f"></{node.name}>"

    def end(self, node, level):
        """Ends an element that has children."""
        if node.parent is None:
            return
        if node.is_indented:
            self.put(" " * min(2 * level, MOST_SPACES))
        self.put(f"</{node.name}>")
        self.after(node)

    def after(self, node):
        """Inside an indented element a line feed follows each node; at the top one follows a comment."""
        if node.parent.parent is not None:
            self.put("\n" if node.parent.is_indented else "")
        elif node.kind == "comment" and node.place + 1 < len(node.parent.children) and self.has_feeds:
            self.put("\n")
