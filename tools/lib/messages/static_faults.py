"""Finds out what the static faults 20 to 46 of an element are about.

Each function takes a stylesheet's modules, the module with the fault and the element, and
answers a finding, or None where it sees nothing.
"""

import re

from lib.messages.findings import Finding, expanded, readings, short, unknown_attributes
from lib.messages.nearest import hint
from lib.messages.vocabulary import ELEMENTS, FUNCTIONS, NOT_HERE, XSLT, attributes_of, required_of

GREATEST = 9_007_199_254_740_991
NCNAME = r"[^\W\d][\w.\-\u00b7]*"
QNAME = re.compile(rf"(?:{NCNAME}:)?{NCNAME}")
YES_OR_NO = re.compile("yes|no")
# What values some attributes may have.
VALUES = {
    "name": (QNAME, "no name"),
    "mode": (QNAME, "no name"),
    "method": (QNAME, "no name"),
    "priority": (re.compile(r"-?(?:\d+(?:\.\d*)?|\.\d+)"), "no number"),
    "level": (re.compile("single|multiple|any"), "none of single, multiple and any"),
    **{
        name: (YES_OR_NO, "neither yes nor no")
        for name in ("terminate", "disable-output-escaping", "indent", "omit-xml-declaration", "standalone")
    },
}


def syntax(_modules, _module, element):
    for reading in readings(element):
        fault = reading.content.fault
        if fault:
            text = f'{reading.attribute}="{short(reading.value)}" is no {reading.kind}: {fault.reason}'
            return reading.finding(text, fault.place)
    return None


def unknown_function(_modules, _module, element):
    for reading in readings(element):
        for call in reading.content.calls:
            if call.name not in FUNCTIONS:
                what = f"is not known{hint(call.name, FUNCTIONS)}"
                text = f"function {call.name} {'is of XSLT 1.0, and not supported here' if call.name in NOT_HERE else what}"
                return reading.finding(text, call.place)
    return None


def argument_count(_modules, _module, element):
    for reading in readings(element):
        for call in reading.content.calls:
            least, most = FUNCTIONS.get(call.name, (0, None))
            if call.count < least or (most is not None and call.count > most):
                wanted = f"at least {least}" if most is None else f"{least} to {most}" if least < most else str(most)
                plural = "" if wanted == "1" else "s"
                text = f"function {call.name} takes {wanted} argument{plural}, {call.count} given"
                return reading.finding(text, call.place)
    return None


def bad_literal(_modules, _module, element):
    for reading in readings(element):
        for number, place in reading.content.numbers:
            if "." in number or int(number) > GREATEST:
                what = "no whole number, and only those are supported" if "." in number else f"past {GREATEST:,}"
                return reading.finding(f"number {number} is {what}", place)
    return None


def too_nested(_modules, _module, element):
    for reading in readings(element):
        if max(map(reading.value.count, "([-")) > 32:
            return reading.finding("brackets or minus signs nest more than 64 deep", 0)
    return None


def no_pattern(_modules, _module, element):
    for reading in readings(element):
        if reading.kind == "pattern":
            return reading.finding(f'{reading.attribute}="{short(reading.value)}" is no pattern', 0)
    return None


def no_stylesheet(_modules, module, element):
    if element.is_a("stylesheet", "transform"):
        return Finding(f"{element.name} needs version", element)
    text = f"{element.name} is no stylesheet: that is xsl:stylesheet, xsl:transform, or an element with xsl:version"
    if element.space != XSLT and element.local in ("stylesheet", "transform"):
        text += f"; the namespace has to be {XSLT}"
    return Finding(text, element)


def unsupported(_modules, _module, element):
    if element.is_a("decimal-format"):
        return Finding(f"{element.name} is of XSLT 1.0, and not supported here", element)
    for name, value in element.attributes:
        if name.rpartition(":")[2] == "version" and value != "1.0":
            return Finding(f'version="{short(value)}" is not supported, 1.0 is', element, name, 0, cure=("with", name, "1.0"))
    return None


def missing_attribute(_modules, _module, element):
    if not element.is_xslt or element.local not in ELEMENTS:
        return None
    missing = [name for name in required_of(element.local) if element.get(name) is None]
    if element.local == "template" and not missing:
        missing = ["match or name"]
    if not missing:
        return None
    wanted = f"{element.name} needs {' and '.join(missing)}"
    unknown = unknown_attributes(element)
    if not unknown:
        return Finding(wanted, element)
    known = f"{unknown[0]} is not known{hint(unknown[0], attributes_of(element.local))}"
    return Finding(f"{wanted}, and {known}", element, unknown[0])


def unknown_attribute(_modules, _module, element):
    own = {"version", "exclude-result-prefixes", "extension-element-prefixes", "use-attribute-sets"}
    if element.is_xslt and element.local in ELEMENTS:
        known, unknown = attributes_of(element.local), unknown_attributes(element)
        unknown = unknown or [name for name, _ in element.attributes if ":" in name and name[:6] != "xmlns:"]
    else:
        known = [f"{prefix}:{name}" for prefix, uri in element.spaces.items() if uri == XSLT and prefix for name in own]
        unknown = [name for name, _ in element.attributes if element.spaces.get(name.rpartition(":")[0]) == XSLT]
        unknown = [name for name in unknown if ":" in name and name not in known]
    if not unknown:
        return None
    text = f"{element.name} has no attribute {unknown[0]}{hint(unknown[0], known)}"
    return Finding(text, element, unknown[0], None, cure=("without", unknown[0]))


def bad_attribute(_modules, _module, element):
    optional = ELEMENTS[element.local][1].split() if element.is_xslt and element.local in ELEMENTS else []
    for name, value in element.attributes:
        pattern, what = VALUES.get(name, (None, None))
        if element.is_xslt and pattern and not pattern.fullmatch(value):
            # Whoever refers to a name that is bad would be reported besides.
            cure = ("without", name) if name in optional and name != "name" else ("stop",)
            return Finding(f'{name}="{short(value)}" is {what}', element, name, 0, cure=cure)
    return None


def prefixes_in(element):
    """The prefixes that an element's attributes use, each with the attribute and the place."""
    for reading in readings(element):
        content = reading.content
        names = content.names + content.variables + [(call.name, call.place) for call in content.calls]
        for name, place in sorted(names, key=lambda each: each[1]):
            if ":" in name:
                yield name.partition(":")[0], reading.attribute, place
    for name, value in element.attributes:
        is_name = name in ("name", "mode", "method", "elements") or name.endswith("use-attribute-sets")
        for found in re.finditer(rf"({NCNAME}):(?:{NCNAME}|\*)", value) if is_name and "{" not in value else ():
            yield found[1], name, found.start()
        if name.rpartition(":")[2] in ("exclude-result-prefixes", "extension-element-prefixes"):
            for found in re.finditer(NCNAME, value):
                yield found[0], name, found.start()


def unbound_prefix(_modules, _module, element):
    for prefix, attribute, place in prefixes_in(element):
        if prefix not in element.spaces:
            text = f"prefix {prefix} is not bound{hint(prefix, filter(None, element.spaces))}"
            reading = next((each for each in readings(element) if each.attribute == attribute), None)
            return reading.finding(text, place) if reading else Finding(text, element, attribute, place, cure=("without", attribute))
    return None


def global_bindings(modules):
    """The global variables and parameters of all modules."""
    tops = [top for module in modules for top in (module.root.children if module.root else ())]
    return [top for top in tops if top.is_a("variable", "param")]


def local_bindings(element):
    """The variables and parameters that are visible at an element, except global ones: from the inside."""
    while element.parent and element.parent.parent:
        place = element.parent.children.index(element)
        yield from (each for each in element.parent.children[:place][::-1] if each.is_a("variable", "param"))
        element = element.parent


def unknown_variable(modules, _module, element):
    bindings = [each for each in (*global_bindings(modules), *local_bindings(element)) if each.get("name")]
    visible = {expanded(each, each.get("name")) for each in bindings}
    for reading in readings(element):
        for name, place in reading.content.variables:
            if expanded(element, name) not in visible:
                found = hint(name, [each.get("name") for each in bindings], "$")
                return reading.finding(f"variable ${name} is not in scope{found}", place)
    return None


def shadowing(_modules, _module, element):
    name = element.get("name") or ""
    for other in local_bindings(element):
        if expanded(other, other.get("name") or "") == expanded(element, name):
            return Finding(f"variable ${name} hides that of line {other.line}", element, "name", 0)
    return None


def is_before(modules, module, element, other_module, other):
    """Whether another element is in an earlier module, or before this one."""
    order = list(modules)
    return (order.index(other_module), other.row) < (order.index(module), element.row)


def double(modules, module, element):
    """A global variable or a template of which the name is there already."""
    kind = ("template",) if element.is_a("template") else ("variable", "param")
    name, what = element.get("name") or "", "template " if element.is_a("template") else "global variable $"
    for other_module in modules:
        for other in other_module.root.children if other_module.root else ():
            is_same = other.is_a(*kind) and other.get("name") and expanded(other, other.get("name")) == expanded(element, name)
            if is_same and is_before(modules, module, element, other_module, other):
                text = f"{what}{name} is there already, at {other_module.xml}:{other.line}"
                return Finding(text, element, "name", 0)
    return Finding(f"{what}{name} is there already", element, "name", 0)


def unknown_template(modules, _module, element):
    name = element.get("name") or ""
    tops = [top for module in modules for top in (module.root.children if module.root else ())]
    names = [top.get("name") for top in tops if top.is_a("template") and top.get("name")]
    return Finding(f"no template has the name {name}{hint(name, names)}", element, "name", 0)


def circular_set(_modules, _module, element):
    text = f"attribute set {element.get('name')} uses itself"
    return Finding(text, element, "use-attribute-sets", 0, cure=("without", "use-attribute-sets"))


def forbidden(_modules, _module, element):
    for reading in readings(element):
        calls = [call for call in reading.content.calls if call.name in ("current", "key")]
        if reading.kind == "pattern" or element.is_a("key"):
            for name, place in reading.content.variables:
                return reading.finding(f"variable ${name} is not allowed in {reading.attribute}", place)
            for call in calls:
                return reading.finding(f"function {call.name} is not allowed in {reading.attribute}", call.place)
    return None
