"""Finds out what the faults of reading modules and of a run are about."""

from lib.messages.findings import Finding, short


def circular_module(_modules, _module, element):
    return Finding(f'href="{short(element.get("href") or "")}": the module would be a part of itself', element, "href", 0)


def template_of(element):
    """The template or the global binding that an element is in, as it is called."""
    top = next((each for each in (element, *element.ancestors()) if each.parent and not each.parent.parent), element)
    name, match = top.get("name"), top.get("match")
    return f"{top.name} {name}" if name else f'{top.name} match="{short(match)}"' if match else top.name


def too_deep(_modules, _module, element):
    what = f"the call of template {element.get('name')}" if element.is_a("call-template") else element.name
    text = f"templates nest more than 16,384 deep: {what} in {template_of(element)} comes back without end"
    attribute = "name" if element.is_a("call-template") else None
    return Finding(text, element, attribute, 0 if attribute else None)


def circular_global(_modules, _module, element):
    return Finding(f"a global variable needs its own value: {template_of(element)}", element)


def no_rule(_modules, _module, element):
    return Finding(f"no template rule is current at {element.name}", element)


def terminated(_modules, _module, element):
    return Finding(f'{element.name} with terminate="yes" ends the run', element)


def no_extension(_modules, _module, element):
    return Finding(f"extension element {element.name} is not known, and has no xsl:fallback", element)


def bad_order(_modules, _module, element):
    """The order of a sort key, where one alone can be meant."""
    sorts = [each for each in element.children if each.is_a("sort")]
    wrong = [each for each in sorts if each.get("order") not in (None, "ascending", "descending")]
    if len(wrong) != 1:
        return None
    text = f'order="{short(wrong[0].get("order"))}" is neither ascending nor descending'
    return Finding(text, wrong[0], "order", 0)
