"""Where the parts of a document go: to pieces of XML."""

from lib.write_xml import as_text, as_value


class NotEncoded(Exception):
    """The encoding of a result does not have a character of a part in which no reference can be written."""


class Target:
    """Parts as XML in UTF-8. Of each part it is said whether it is at the top."""

    def __init__(self):
        self.pieces = []

    def taken(self):
        """The bytes that were put and not taken yet."""
        made = "".join(self.pieces).encode()
        self.pieces.clear()
        return made

    def start(self, name, _):
        self.pieces.append("<" + name)

    def attribute(self, name, value):
        self.pieces.append(f' {name}="{as_value(value)}"')

    def end_start(self, _name, _uri, _local, is_empty, _):
        """Ends a start tag of an element, which is of this expanded name."""
        self.pieces.append("/>" if is_empty else ">")

    def end(self, name, is_empty):
        """Ends an element; of an empty one nothing is left to put."""
        if not is_empty:
            self.pieces.append(f"</{name}>")

    def text(self, text, _):
        self.pieces.append(as_text(text))

    def comment(self, text, _):
        self.pieces.append(f"<!--{text}-->")

    def instruction(self, name, text, _):
        self.pieces.append(f"<?{name} {text}?>" if text else f"<?{name}?>")

    def finish(self, is_document):
        """All parts were put."""
        if is_document:
            self.pieces.append("\n")
