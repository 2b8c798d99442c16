"""The encoding of a result: UTF-8, UTF-16, or one of those that have a byte for a character."""

import codecs
import re

from lib.encodings import SINGLE_BYTE

NOT_ENCODED = "the encoding has no such character, and here no reference can be written"
KNOWN = {name.upper() for name in ("UTF-8", "UTF-16", "US-ASCII", "ISO-8859-1", *SINGLE_BYTE)}


def is_known(name):
    """Whether results can be written in an encoding."""
    return name.upper() in KNOWN


def as_references(fault):
    """What is written for characters that an encoding does not have."""
    return "".join(f"&#{ord(each)};" for each in fault.object[fault.start : fault.end]), fault.end


codecs.register_error("xslt-references", as_references)


class Encoder:
    """Writes text in an encoding."""

    def __init__(self, name):
        self.is_wide = name.upper() == "UTF-16"
        self.codec = "utf-16-le" if self.is_wide else name
        self.lacking = re.compile("(?!)") if name.upper() in ("UTF-8", "UTF-16") else lacking(name)

    def holds(self, text):
        """Whether the encoding has all characters of a text."""
        return text.isascii() or not self.lacking.search(text)

    def encode(self, text):
        """A text, with references for the characters that the encoding does not have."""
        return text.encode(self.codec, "xslt-references")

    def begin(self):
        """What comes before all: a byte order mark."""
        return "\ufeff" if self.is_wide else ""


def lacking(name):
    """A pattern of the characters that an encoding does not have."""
    there = bytes(range(1, 256)).decode(name, "ignore")
    return re.compile(f"[^{re.escape(there)}]")
