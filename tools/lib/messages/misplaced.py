"""Finds out which element or text is where none may be (fault 37)."""

from lib.messages.findings import Finding
from lib.messages.nearest import hint
from lib.messages.vocabulary import BODY, ELEMENTS, PARTS, PLACES, TOP_LEVEL, WITH_BODY

NO_TEXT = (
    "stylesheet transform attribute-set apply-templates call-template choose import include strip-space "
    "preserve-space output key namespace-alias apply-imports value-of copy-of number sort"
).split()
BINDINGS = ("variable", "param", "with-param")


def misplaced(_modules, _module, element):
    for test in (unknown, outside_its_place, in_selected, with_text, without_when):
        text = test(element)
        if text:
            return Finding(text, element, at=element.text_place if test is with_text else None)
    return Finding(f"{element.name} may not be here", element)


def unknown(element):
    if not element.is_xslt or element.local in ELEMENTS:
        return ""
    return f"{element.name} is no element of XSLT{hint(element.local, ELEMENTS, element.prefix)}"


def may_hold(parent, element):
    """Whether an element may be in another one, wherever in it."""
    local = element.local if element.is_xslt else ""
    if not parent.is_xslt:
        return not element.is_xslt or local in BODY
    if parent.local in ("stylesheet", "transform"):
        return local in TOP_LEVEL or bool(not element.is_xslt and element.space)
    if parent.local == "attribute-set":
        return local == "attribute"
    if local in PARTS:
        return parent.local in PARTS[local]
    if local == "param":
        return parent.local == "template"
    return parent.local in WITH_BODY and (local in BODY or not element.is_xslt)


def outside_its_place(element):
    parent = element.parent
    if parent is None or (parent.is_xslt and parent.local not in ELEMENTS):
        return ""
    place = PLACES.get(element.local, "").format(element.prefix) if element.is_xslt else ""
    if not may_hold(parent, element) or (place and comes_late(element)):
        return f"{element.name} may not be here, in {parent.name}" + (f": {place}" if place else "")
    return ""


def comes_late(element):
    """Whether something is before an element that has to be first."""
    before = element.parent.children[: element.parent.children.index(element)]
    if element.local in ("param", "sort", "import"):
        return any(not each.is_a(element.local) for each in before)
    return element.local in ("when", "otherwise") and any(each.is_a("otherwise") for each in before)


def in_selected(element):
    parent = element.parent
    if parent and parent.is_a(*BINDINGS) and parent.get("select") is not None:
        return f"{element.name} may not be here: {parent.name} has a select"
    return ""


def with_text(element):
    is_selected = element.is_a(*BINDINGS) and element.get("select") is not None
    if element.has_text and (element.is_a(*NO_TEXT) or is_selected):
        return f"{element.name} may not hold text"
    return ""


def without_when(element):
    is_without = element.is_a("choose") and not any(each.is_a("when") for each in element.children)
    return f"{element.name} needs {element.prefix}when" if is_without else ""
