"""What is wrong in an element of a stylesheet, in the words of whoever wrote it."""

from __future__ import annotations

from dataclasses import dataclass

from lib.messages import xpath
from lib.declarations import declared
from lib.messages.vocabulary import EXPRESSIONS, PATTERNS, TEMPLATES, XSLT, attributes_of

LONGEST = 60


@dataclass
class Finding:
    """What is wrong, where, and how the element can be changed so that it is right."""

    text: str
    element: object = None
    attribute: str | None = None
    place: int | None = None  # in the attribute's value
    at: tuple | None = None  # the line and the column, of what is neither an element nor an attribute
    question: str | None = None  # an expression: with its value in the run the finding says more
    answer: object = None  # the finding, by that value
    cure: tuple = ("drop",)  # or ("without", attribute), ("with", attribute, value), ("stop",)


@dataclass
class Reading:
    """An attribute that holds an expression, a pattern or a value template."""

    element: object
    attribute: str
    value: str
    kind: str
    content: xpath.Expression

    def finding(self, text, place):
        """A fault of this attribute; with a harmless value the element is right."""
        harmless = {"expression": "''", "pattern": "*", "value template": ""}[self.kind]
        return Finding(text, self.element, self.attribute, place, cure=("with", self.attribute, harmless))


def kind_of(element, attribute):
    """What an attribute's value is read as, or None."""
    prefix = attribute.rpartition(":")[0]
    if declared(attribute) is not None or (prefix and element.is_xslt):
        return None
    if not element.is_xslt:
        is_own = bool(prefix) and element.spaces.get(prefix) == XSLT
        return None if is_own else "value template"
    if attribute in TEMPLATES.get(element.local, ()):
        return "value template"
    if attribute in EXPRESSIONS:
        return "expression"
    return "pattern" if attribute in PATTERNS else None


def readings(element):
    """The attributes of an element that are read as expressions, patterns or value templates."""
    for name, value in element.attributes:
        kind = kind_of(element, name)
        if kind:
            content = xpath.read_template(value) if kind == "value template" else xpath.read(value)
            yield Reading(element, name, value, kind, content)


def short(text):
    return text if len(text) <= LONGEST else text[: LONGEST - 2] + ".."


def expanded(element, name):
    """The namespace and local part of the name of a variable or a template."""
    prefix, _, local = name.rpartition(":")
    return (element.spaces.get(prefix) if prefix else "", local)


def unknown_attributes(element):
    """The attributes without a namespace that an element of XSLT may not have."""
    known = attributes_of(element.local)
    return [name for name, _ in element.attributes if ":" not in name and name != "xmlns" and name not in known]
