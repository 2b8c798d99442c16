"""Finds out which arguments the program refuses, and why (docs/LANGUAGE.md, Arguments)."""

import re

TICKS = 1_099_511_627_776
GREATEST = {"--budget": TICKS, "--max-events": TICKS, "--at": TICKS, "--workers": 64, "--grain": 65_536, "--load": 1_000_000}
LATER = ("--at", "--profile", "--stream")
MOST_DOCUMENTS = 255


def wrong(options):
    """What is wrong with the arguments that were passed on, one line each. What is not supported yet comes where nothing else does."""
    given = pairs(options.passed_on)
    found = [text for name, value in given for text in wrong_value(name, value)]
    names = [name for name, _ in given]
    found += [f"option {name} is given twice" for name in dict.fromkeys(names) if names.count(name) > 1]
    found += wrong_parameters(options.parameters)
    if "--load" in names:
        found.append("--load makes its own stylesheet and source, and takes no input")
    if "--check" in names:
        found += [f"{name} does not go with --check" for name in LATER if name in names]
    later = [*(name for name in LATER if name in names), *(each for each in options.parameters if each.startswith("@"))]
    return found or [f"{name} is not supported yet" for name in later]


def pairs(passed_on):
    """The options that were passed on, each with its value, if it has one."""
    given, rest = [], iter(passed_on)
    for word in rest:
        name, equals, value = word.partition("=")
        given.append((name, value if equals else next(rest, "") if name in GREATEST else None))
    return given


def wrong_value(name, value):
    """What is wrong with the value of an option."""
    if name not in GREATEST:
        if value is not None:
            yield f"option {name} has no value"
    elif not re.fullmatch("[0-9]{1,13}", value) or not 1 <= int(value) <= GREATEST[name]:
        yield f"{name} {value or 'without a value'}: that is a whole number from 1 to {GREATEST[name]:,}"


def wrong_parameters(parameters):
    """What is wrong with the parameters and documents."""
    names = [each.partition("=")[0] for each in parameters]
    for name in dict.fromkeys(names):
        if names.count(name) > 1:
            yield f"{'document' if name[0] == '@' else 'parameter'} {name} is given twice"
    if sum(name[0] == "@" for name in names) > MOST_DOCUMENTS:
        yield f"there are more than {MOST_DOCUMENTS} documents"
    for each in parameters:
        if re.search("[\ud800-\udfff]", each):
            yield f"parameter {each.partition('=')[0]} is not in UTF-8"
