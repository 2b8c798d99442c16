"""What --warn says of a stylesheet: attributes that are dropped, and sorts that are by text."""

from lib.messages import reports
from lib.messages.findings import Finding, short

# Instructions around an attribute that put nothing themselves.
AROUND = ("if", "choose", "when", "otherwise", "for-each")
PUTS_CHILD = ("element", "text", "comment", "processing-instruction", "value-of", "number")


def warn(folder):
    """Reports all that is found, module by module."""
    for module in folder.modules.values():
        for element in module.elements():
            for finding in (late_attribute(element), unknown_type(element)):
                if finding:
                    reports.report(module, finding, "", "warning")


def late_attribute(element):
    """An attribute that comes after a child of the element that it is for."""
    if not element.is_a("attribute"):
        return None
    inner = element
    while inner.parent and not inner.parent.is_a("attribute-set"):
        before = inner.parent.children[: inner.parent.children.index(inner)]
        child = next((each for each in reversed(before) if not each.is_xslt or each.is_a(*PUTS_CHILD)), None)
        if child or inner.is_after_text:
            what = f"{child.name} of line {child.line}" if child else "a text"
            text = f"{element.name} comes after {what}: an attribute after a child is dropped (XSLT 1.0, 7.1.3)"
            return Finding(text, element)
        if not inner.parent.is_a(*AROUND):
            return None
        inner = inner.parent
    return None


def unknown_type(element):
    """A data type that is neither of the two."""
    kind = element.get("data-type") if element.is_a("sort") else None
    if kind is None or kind in ("text", "number") or "{" in kind:
        return None
    return Finding(f'data-type="{short(kind)}" is neither text nor number, and sorts as text', element, "data-type", 0)
