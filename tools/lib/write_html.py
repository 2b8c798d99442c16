"""The nodes of a result as HTML (XSLT 1.0, 16.2)."""

import re
from urllib.parse import quote

from lib import write_xml
from lib.html_names import BLOCKS, BOOLEANS, RAW, VOIDS, is_uri, lower
from lib.nodes import XHTML, Node

SPECIAL = re.compile('&(?!\\{)|[>\r"]')
REFERENCES = {"&": "&amp;", ">": "&gt;", "\r": "&#13;", '"': "&quot;"}
BEYOND = re.compile("[^\x00-\x7f]+")


def value(text, is_a_uri):
    """The value of an attribute between quotes."""
    mark = "'" if '"' in text and "'" not in text else '"'
    made = SPECIAL.sub(lambda found: found[0] if found[0] == '"' != mark else REFERENCES[found[0]], text)
    if is_a_uri:
        made = BEYOND.sub(lambda found: quote(found[0], safe=""), made)
    return mark + made + mark


def attribute(element, name, text):
    """An attribute of an element of HTML; one that says something by being there has no value."""
    if lower(name) in BOOLEANS and lower(text) == lower(name):
        return " " + name
    return f" {name}={value(text, is_uri(element.name, name))}"


def is_named(node, name):
    """Whether a node is an element of HTML of this name."""
    return node.kind == "element" and not node.uri and lower(node.name) == name


def child_named(node, name):
    """The first child of this name."""
    return next((child for child in node.children if is_named(child, name)), None)


def value_of(node, name):
    """The value of an attribute of an element, empty where it has none."""
    return next((text for each, text in node.attributes if lower(each) == name), "")


def add_meta(root, encoding):
    """Says the encoding in the head: in a `meta` that says one already, or in a new one."""
    head = child_named(child_named(root, "html") or root, "head")
    if head is None:
        return
    said = f"text/html; charset={encoding}"
    for node in head.children:
        content = value_of(node, "content")
        if not is_named(node, "meta") or not content or lower(value_of(node, "http-equiv")) != "content-type":
            continue
        if lower(encoding) not in lower(content):
            node.attributes = [(name, said if lower(name) == "content" else text) for name, text in node.attributes]
        return
    made = Node("element", "meta", "", head)
    made.attributes = [("http-equiv", "Content-Type"), ("content", said)]
    head.children.insert(0, made)
    for place, child in enumerate(head.children):
        child.place = place


class HtmlWriter:
    """Writes nodes one after the other."""

    def __init__(self, settings, put):
        self.settings, self.put = settings, put
        self.is_indented = settings.indent != "no"

    def write(self, root):
        """All nodes."""
        add_meta(root, self.settings.encoding)
        todo, opened = [iter(root.children)], [root]
        while todo:
            node = next(todo[-1], None)
            if node is None:
                todo.pop()
                self.end(opened.pop())
                continue
            self.begin(node)
            if node.children:
                todo.append(iter(node.children))
                opened.append(node)
            else:
                self.after(node)
        self.put("\n")

    def begin(self, node):
        """Begins an element, or writes another node."""
        if node.kind == "text":
            is_raw = not node.parent.uri and lower(node.parent.name) in RAW
            self.put(node.text if is_raw else write_xml.as_text(node.text))
        elif node.kind == "comment":
            self.put(write_xml.comment(node))
        elif node.kind == "instruction":
            self.put(write_xml.instruction(node) + ">")
        elif node.uri:
            self.begin_xml(node)
        else:
            self.begin_element(node)

    def begin_xml(self, node):
        """The start of an element that is in a namespace, as XML; an empty one has its end tag, except for those of XHTML that
        have none in HTML."""
        is_void = node.uri == XHTML and lower(node.local) in VOIDS
        self.put(write_xml.start(node) + ("/>" if is_void and not node.children else ">"))
        if not is_void and not node.children:
            self.put(f"</{node.name}>")

    def begin_element(self, node):
        """The start of an element of HTML, and of an empty one the end."""
        self.put(f"<{node.name}" + "".join(attribute(node, *each) for each in node.attributes) + ">")
        if lower(node.name) in VOIDS:
            return
        if node.children:
            self.put_inner_feed(node, node.children[0])
        else:
            self.put(f"</{node.name}>")

    def end(self, node):
        """Ends an element that has children, or the root."""
        if node.parent is None:
            return
        if node.uri or lower(node.name) not in VOIDS:
            self.put_inner_feed(node, node.children[-1])
            self.put(f"</{node.name}>")
        self.after(node)

    def is_block(self, node):
        """Whether line feeds may be put around a node, and inside it."""
        return self.is_indented and node.kind == "element" and not node.uri and lower(node.name) in BLOCKS

    def put_inner_feed(self, node, child):
        """A line feed inside an element, before its first child or after its last one: not inside `p`, `pre` and `param`."""
        if self.is_block(node) and child.kind != "text" and len(node.children) > 1 and node.local[0] != "p":
            self.put("\n")

    def after(self, node):
        """A line feed after an element inside another one, where no text follows."""
        parent, place = node.parent, node.place + 1
        if not self.is_block(node) or parent.parent is None or place == len(parent.children):
            return
        if parent.children[place].kind != "text" and parent.local[0] != "p":
            self.put("\n")
