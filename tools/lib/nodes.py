"""The nodes of a result, for what is written when all of it is known."""

XHTML = "http://www.w3.org/1999/xhtml"


class Node:
    """The root, an element, a text, a comment or a processing instruction, by its kind: one of these five words."""

    __slots__ = ("kind", "name", "text", "parent", "place", "children", "attributes", "uri", "is_cdata")
    __slots__ += ("is_preserved", "is_indented")

    def __init__(self, kind, name, text, parent):
        self.kind, self.name, self.text, self.parent = kind, name, text, parent
        self.place = len(parent.children) if parent else 0  # among the children of the parent
        self.children, self.attributes = [], []
        self.uri, self.is_cdata = "", False
        self.is_preserved = parent is not None and parent.is_preserved  # xml:space says so
        self.is_indented = False  # its children are: found when it is written

    @property
    def local(self):
        return self.name.rpartition(":")[2]

    @property
    def has_text(self):
        return any(child.kind == "text" for child in self.children)


class Nodes:
    """The nodes that were read so far."""

    def __init__(self):
        self.root = self.inner = Node("root", "", "", None)

    def add(self, kind, name, text):
        made = Node(kind, name, text, self.inner)
        self.inner.children.append(made)
        return made

    def start(self, name):
        self.inner = self.add("element", name, "")

    def attribute(self, name, value):
        self.inner.attributes.append((name, value))
        if name == "xml:space" and value in ("preserve", "default"):
            self.inner.is_preserved = value == "preserve"

    def text(self, text):
        """Adds a text; after a text it is a part of that."""
        last = self.inner.children[-1] if self.inner.children else None
        if last is not None and last.kind == "text":
            last.text += text
        elif text:
            self.add("text", "", text)

    def end(self):
        self.inner = self.inner.parent
