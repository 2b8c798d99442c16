"""What Namespaces in XML 1.0 asks of a tag beyond XML 1.0, in expat's words, and where a name has its fault."""

import re
from functools import cache
from xml.parsers import expat

from lib.declarations import declared

XML = "http://www.w3.org/XML/1998/namespace"
XMLNS = "http://www.w3.org/2000/xmlns/"
ERRORS = expat.errors
# Letters of ISO-8859-1 that expat takes for ones of names in that encoding, and XML does not.
NO_LETTERS = re.compile("[\xaa\xb5\xba]")
BEFORE_NO_LETTER = re.compile(rb"""<(?:[^>"'\xaa\xb5\xba]|"[^"]*"|'[^']*')*(?=[\xaa\xb5\xba])""")


@cache
def starts_name(character):
    """Whether expat takes a name that starts with this character."""
    try:
        expat.ParserCreate("UTF-8").Parse(f"<{character}/>".encode(), True)
    except expat.ExpatError:
        return False
    return character != ":"


def is_qname(name):
    """Whether a name has no colon, or one between two names."""
    prefix, colon, local = name.partition(":")
    return not colon or (prefix != "" and starts_name(local[:1]) and ":" not in local)


def fault_of_binding(prefix, uri):
    """The fault of binding a prefix, the empty one for the default, to a namespace, or None."""
    if prefix and not uri:
        return ERRORS.XML_ERROR_UNDECLARING_PREFIX
    if prefix == "xmlns":
        return ERRORS.XML_ERROR_RESERVED_PREFIX_XMLNS
    if prefix == "xml" and uri != XML:
        return ERRORS.XML_ERROR_RESERVED_PREFIX_XML
    if (prefix != "xml" and uri == XML) or uri == XMLNS:
        return ERRORS.XML_ERROR_RESERVED_NAMESPACE_URI
    return None


class Namespaces:
    """The bindings in scope."""

    def __init__(self):
        self.bound = {"xml": [XML]}  # of each prefix what it is bound to, innermost last
        self.declared = []  # of each open element the prefixes that it declares

    def enter(self, name, attributes):
        """Tests the start tag of an element and binds what its attributes, names and values in turn, declare: its first fault, or
        None. An invalid token is a name with a colon too many."""
        self.declared.append([])
        if not any(":" in each or each == "xmlns" for each in (name, *attributes[::2])):
            return None
        if not all(map(is_qname, (name, *attributes[::2]))):
            return ERRORS.XML_ERROR_INVALID_TOKEN
        for at in range(0, len(attributes), 2):
            prefix = declared(attributes[at])
            if prefix is None:
                continue
            fault = fault_of_binding(prefix, attributes[at + 1])
            if fault:
                return fault
            self.bound.setdefault(prefix, []).append(attributes[at + 1])
            self.declared[-1].append(prefix)
        return self.fault_of_attributes(attributes[::2]) or self.fault_of_prefix(name)

    def leave(self):
        """Drops what the innermost element declares."""
        for prefix in self.declared.pop():
            self.bound[prefix].pop()

    def fault_of_prefix(self, name):
        prefix, colon, _ = name.partition(":")
        return ERRORS.XML_ERROR_UNBOUND_PREFIX if colon and not self.bound.get(prefix) else None

    def fault_of_attributes(self, names):
        """An expanded name that is there twice counts more than a prefix after it that is not bound."""
        seen = set()
        for name in names:
            prefix, colon, local = name.partition(":")
            if not colon or declared(name) is not None:
                continue
            if not self.bound.get(prefix):
                return ERRORS.XML_ERROR_UNBOUND_PREFIX
            key = self.bound[prefix][-1], local
            if key in seen:
                return ERRORS.XML_ERROR_DUPLICATE_ATTRIBUTE
            seen.add(key)
        return None


def place_of(parser):
    """Where what the parser reports begins: line, and column from 0."""
    return parser.CurrentLineNumber, parser.CurrentColumnNumber


def place_of_colon(parser, encoding):
    """Where a tag has a colon too many: a parser says where that reads the tag alone."""
    line, column = place_of(parser)
    tag = expat.ParserCreate(encoding, namespace_separator="\x01")
    try:
        tag.Parse(parser.GetInputContext() or b"", True)
    except expat.ExpatError as fault:
        return line + fault.lineno - 1, (column if fault.lineno == 1 else 0) + fault.offset
    return line, column


def place_in_target(parser, target):
    """Where the target of an instruction has its first colon."""
    line, column = place_of(parser)
    return line, column + len("<?") + target.index(":")


def place_of_no_letter(parser):
    """Where one of those letters stands in a name, in a document in ISO-8859-1."""
    line, column = place_of(parser)
    before = BEFORE_NO_LETTER.match(parser.GetInputContext() or b"")
    if not before:
        return line, column  # an entity holds it
    rows = re.split(rb"\r\n?|\n", before[0])
    return line + len(rows) - 1, len(rows[-1]) + (column if len(rows) == 1 else 0)
