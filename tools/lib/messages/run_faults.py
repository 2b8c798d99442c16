"""Finds out what the faults of a run are about: numbers, node-sets, keys, and names of the result.

Each function takes a stylesheet's modules, the module with the fault and the element, and answers a finding, or None where it sees
nothing. Where the value of an expression would say more, the finding has a question.
"""

import re

from lib.messages.findings import Finding, expanded, readings, short
from lib.messages.nearest import hint
from lib.messages.static_faults import NCNAME, QNAME, global_bindings, local_bindings
from lib.messages.vocabulary import XMLNS, XSLT

NUMERIC = ("number", "sum", "floor", "ceiling", "round")
WHOLE = "only whole numbers are supported"
LITERAL = re.compile("'([^']*)'|\"([^\"]*)\"")
# Calls that take a node-set, besides steps, predicates and the union.
TAKE_NODES = ("count", "sum", "local-name", "namespace-uri", "name", "generate-id")


def numeric(element):
    """The attribute that most likely made a number, and where in it, or None: of the element, or of its sort keys."""
    sorts = [each for each in element.children if each.is_a("sort") and each.get("data-type") == "number"]
    found = []
    for reading in [*readings(element), *(each for sort in sorts for each in readings(sort) if each.attribute == "select")]:
        content, is_sort = reading.content, reading.element is not element
        places = [(text != "div", place) for text, place in content.operators]
        places += [(True, call.place) for call in content.calls if call.name in NUMERIC]
        places += [(True, 0)] * (is_sort or reading.attribute == "value")
        found += [(not_div, index, place, reading) for index, (not_div, place) in enumerate(places)]
    if found:
        *_, place, reading = min(found, key=lambda each: each[:2])
        return reading, place
    only = list(readings(element))
    return (only[0], 0) if len(only) == 1 else None


def fraction(_modules, _module, element):
    found = numeric(element)
    if not found:
        return Finding(f"{WHOLE}, and an expression of {element.name} reads or gives a fraction", element)
    reading, place = found
    return reading.finding(f'{WHOLE}, and {reading.attribute}="{short(reading.value)}" reads or gives a fraction', place)


def out_of_range(_modules, _module, element):
    found = numeric(element)
    if not found:
        return None
    reading, place = found
    text = f'{reading.attribute}="{short(reading.value)}" gives a number past 9,007,199,254,740,991, or divides by 0'
    return reading.finding(text, place)


def binding_of(modules, element, name):
    """The variable or parameter that a name refers to at an element, or None."""
    for each in (*local_bindings(element), *reversed(global_bindings(modules))):
        if each.get("name") and expanded(each, each.get("name")) == expanded(element, name):
            return each
    return None


def no_nodes(modules, _module, element):
    """What is no node-set: a variable with content, which is a tree fragment, comes first."""
    uses = [(reading, name, place) for reading in readings(element) for name, place in reading.content.variables]
    found = [(reading, name, place, binding_of(modules, element, name)) for reading, name, place in uses]
    for reading, name, place, binding in found:
        if binding and binding.get("select") is None and not is_passed(modules, binding):
            what = "holds what its content gives, which is a result tree fragment"
            text = f"a node-set is needed, and variable ${name} of line {binding.line} {what}"
            return reading.finding(f"{text}: only select gives a node-set (XSLT 1.0, 11.1)", place)
    for reading, name, place, binding in found:
        if binding:
            return reading.finding(f"a node-set is needed, and variable ${name} of line {binding.line} is none", place)
    return no_nodes_without_variable(element)


def is_passed(modules, binding):
    """Whether a parameter may have another value than its own, and so have nodes."""
    calls = [each for module in modules for each in module.elements() if each.is_a("with-param")]
    return binding.is_a("param") and any(each.get("name") == binding.get("name") and each.get("select") is not None for each in calls)


def no_nodes_without_variable(element):
    for reading in readings(element):
        for call in reading.content.calls:
            if call.name in TAKE_NODES and call.arguments:
                argument, place = call.arguments[0]
                return reading.finding(f"function {call.name} needs a node-set, and {short(argument)} is none", place)
    reading = next((each for each in readings(element) if each.attribute == "select"), None)
    return reading.finding(f'a node-set is needed, and select="{short(reading.value)}" has or is another value', 0) if reading else None


def key_names(modules):
    tops = [top for module in modules for top in (module.root.children if module.root else ())]
    return [top.get("name") for top in tops if top.is_a("key") and top.get("name")]


def no_key(modules, _module, element):
    """The name of a key that is not declared, of the first call that may have it."""
    known = key_names(modules)
    owners = [element, *(each for each in element.children if each.is_a("sort"))]
    for reading in (reading for owner in owners for reading in readings(owner)):
        for call in reading.content.calls:
            found = key_finding(reading, *call.arguments[0], known) if call.name == "key" and call.arguments else None
            if found:
                return found
    return None


def key_finding(reading, argument, place, known):
    """What the first argument of a call of key() is, if it may have no declaration."""
    literal = LITERAL.fullmatch(argument)
    if literal:
        name = literal[1] if literal[1] is not None else literal[2]
        return None if name in known else reading.finding(f"no key has the name {short(name)}{hint(name, known)}", place)
    if re.fullmatch(NCNAME, argument):
        text = f"{argument} is a path here: the name of a key is a string, as in key('{argument}', ..)"
        return reading.finding(text + ("" if argument in known else hint(argument, known)), place)

    def answer(name):
        what = f"the name {short(name)}{hint(name, known)}" if name else "an empty name"
        return reading.finding(f"no key has {what}: that is what {short(argument)} gives", place)

    made = reading.finding(f"no key has the name that {short(argument)} gives", place)
    made.question, made.answer = argument, answer
    return made


def finding_of_name(element, say):
    """A finding about the name that an instruction gives to what it makes."""
    reading = next((each for each in readings(element) if each.attribute == "name"), None)
    if not reading:
        return None
    parts = reading.content.parts
    if not any(is_expression for is_expression, _ in parts):
        return reading.finding(say("".join(text for _, text in parts)), 0)
    made = reading.finding(f'name="{short(reading.value)}": {say(None)}', 0)
    quoted = [f"string({text})" if is_expression else literal_of(text) for is_expression, text in parts]
    made.question = f"concat({', '.join(quoted)}, '')"
    made.answer = lambda value: reading.finding(f'{say(value)}: that is what name="{short(reading.value)}" gives', 0)
    return made


def literal_of(letter):
    return f"'{letter}'" if letter != "'" else f'"{letter}"'


def result_name(_modules, _module, element):
    space = element.get("namespace")
    if space == XMLNS:
        text = f'namespace="{XMLNS}" is the namespace of declarations, and the result can have no name in it'
        return Finding(text, element, "namespace", 0)

    def say(name):
        if name is None:
            return "the result can't have the name that this gives"
        what = f"the result can't have the name {short(name)}" if name.strip() else "the result can't have an empty name"
        if element.is_a("attribute") and name == "xmlns":
            return what + ", which declares a namespace"
        if element.is_a("processing-instruction") and name.lower() == "xml":
            return what + " for an instruction"
        return what + ("" if not name.strip() or QNAME.fullmatch(name) else ", which is no name")

    return finding_of_name(element, say)


def unbound_result_prefix(_modules, _module, element):
    def say(name):
        if name is None:
            return "a prefix of the name that this gives is not bound"
        prefix = name.partition(":")[0]
        bound = [each for each, uri in element.spaces.items() if each and uri != XSLT]
        return f"prefix {prefix} of the name {short(name)} is not bound here{hint(prefix, bound)}"

    return finding_of_name(element, say)
