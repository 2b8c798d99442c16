"""Reports of faults as compilers write them: FILE:LINE, what is wrong, the line and a caret."""

import re

from lib.messages import misplaced, other_faults, run_faults, static_faults
from lib.messages.faults import READ_FAULT
from lib.messages.findings import Finding
from lib.reporting import say
from lib.xml2pyx import escape

ATTRIBUTE = re.compile(r"""\s+([^\s=/>"'<]+)\s*=\s*("[^"]*"|'[^']*')""")
TAG = re.compile(r"<([^\s/>]+)")
WIDTH = 120
XML = "error of XML"

FINDERS = {
    20: static_faults.syntax,
    21: static_faults.unknown_function,
    22: static_faults.argument_count,
    23: static_faults.bad_literal,
    24: static_faults.too_nested,
    25: static_faults.no_pattern,
    30: other_faults.circular_module,
    32: static_faults.no_stylesheet,
    33: static_faults.unsupported,
    34: static_faults.missing_attribute,
    35: static_faults.unknown_attribute,
    36: static_faults.bad_attribute,
    37: misplaced.misplaced,
    38: static_faults.unbound_prefix,
    39: static_faults.unknown_variable,
    40: static_faults.shadowing,
    41: static_faults.double,
    42: static_faults.double,
    43: static_faults.unknown_template,
    44: static_faults.circular_set,
    45: static_faults.forbidden,
    51: run_faults.fraction,
    52: run_faults.out_of_range,
    53: run_faults.no_nodes,
    54: run_faults.no_key,
    55: other_faults.too_deep,
    56: other_faults.no_rule,
    57: other_faults.terminated,
    58: other_faults.no_extension,
    59: other_faults.circular_global,
    60: run_faults.result_name,
    61: run_faults.unbound_result_prefix,
    62: other_faults.bad_order,
}


def find(modules, module, fault):
    """What a fault at an element of a module is about."""
    element = module.element(fault.row)
    finder = FINDERS.get(fault.number) if element else None
    found = finder(modules, module, element) if finder else None
    return found or Finding(fault.phrase, element)


def written(raw, place):
    """The place in the text of an attribute as it is written, of a place in its value."""
    at = 0
    for _ in range(place):
        if at >= len(raw):
            break
        end = raw.find(";", at) if raw[at] == "&" else -1
        at = end + 1 if end > 0 else at + 1
    return at


def locate(module, finding):
    """The line, from 1, and the column, from 0, of what is wrong: of its element, or better."""
    if finding.at:
        return finding.at
    element, lines = finding.element, module.source_lines()
    start = sum(len(line) + 1 for line in lines[: element.line - 1]) + element.column
    text = "\n".join(lines)
    at = TAG.match(text, start)
    if not at or at[1] != element.name:
        return element.line, None
    while finding.attribute:
        at = ATTRIBUTE.match(text, at.end())
        if not at:
            break
        if at[1] == finding.attribute:
            inside = None if finding.place is None else at.start(2) + 1
            start = at.start(1) if inside is None else inside + written(at[2][1:-1], finding.place)
            break
    before = text[:start]
    return before.count("\n") + 1, start - (before.rfind("\n") + 1)


def picture(line, column):
    """A line of a file, and a caret below it; of a long line the part around the caret."""
    start = max(0, column - WIDTH // 2) if len(line) > WIDTH else 0
    shown = line[start : start + WIDTH]
    pad = "".join("\t" if letter == "\t" else " " for letter in shown[: column - start])
    return f"  {shown.rstrip()}\n  {pad}^\n"


def report_at(name, lines, line, column, text, kind="error"):
    """One report: the place, the text, and the line with a caret where they are known."""
    place = f"{name}:{line}" if line else name
    if kind == XML:
        place, kind = f"{place}:{column + 1}", "error"  # as the parser counts
    shown = ""
    if column is not None and 0 < line <= len(lines):
        shown = picture(lines[line - 1], column)
    say(f"{place}: {kind}: {text}\n{shown}")


def report(module, finding, tag, kind="error"):
    """Reports a finding in a module."""
    line, column = locate(module, finding) if finding.element else (0, None)
    text = f"{finding.text} {tag}".rstrip()
    report_at(module.xml, module.source_lines() if line else [], line, column, text, kind)


def report_unread(folder, module, fault):
    """Reports a module that can't be read, at the place where it is no XML, or where it is mentioned."""
    other, element = folder.mention(module.xml)
    found = re.match(r"(\d+):(\d+): (.*)", module.reason, re.DOTALL)
    if found:
        report_at(module.xml, module.source_lines(), int(found[1]), int(found[2]) - 1, f"{found[3]} {fault.tag}", XML)
        if other:
            report(other, Finding(f"{module.xml} is mentioned here", element, "href", 0), "", "note")
        return
    reason = f"can't be read: {module.missing}" if module.missing else fault.phrase
    if other:
        report(other, Finding(f"module {module.xml} {reason}", element, "href", 0), fault.tag)
    else:
        say(f"{module.xml}: error: {reason} {fault.tag}\n")


def report_fault(folder, fault, ask):
    """Reports a fault of the stylesheet or of a run; what was found, where that can be changed. ask gives the value of an expression."""
    module = folder.module(fault.file)
    if module and fault.number == READ_FAULT:
        report_unread(folder, module, fault)
    elif module and fault.number < 20:
        say(f"{module.xml}:{module.line(fault.row)}: error: {fault.phrase} {fault.tag}\n")
    elif module:
        finding = find(list(folder.modules.values()), module, fault)
        value = ask(module, finding) if finding.question else None
        finding = finding if value is None else finding.answer(value)
        line_only = finding.element is None and fault.row
        if line_only:
            say(f"{module.xml}:{module.line(fault.row)}: error: {finding.text} {fault.tag}\n")
        else:
            report(module, finding, fault.tag)
        return module, finding
    else:
        say(f"{fault.file}: error: {fault.phrase} {fault.tag}\n")
    return module, None


def report_raw(folder, source, fault):
    """Writes the program's own line, with names and lines of XML."""
    module = folder.module(fault.file)
    name, row, kind = fault.file, fault.row, f"{fault.number} {fault.name}"
    if source and fault.file == source.name:
        name, row = source.xml, source.place(fault.row) if fault.row and not source.reason else 0
        kind = "70 ReadFault" if source.reason else kind
        report_reason(source.xml, source.reason)
    elif module:
        name, row = module.xml, module.line(fault.row)
        report_reason(module.xml, module.reason)
    say(f"fault {kind} {escape(name)} {row}\n")


def report_reason(name, reason):
    """Writes why a document is no XML, if that is so."""
    if re.match(r"\d+:\d+: ", reason):
        say(f"xml2pyx: {name}:{reason}\n")


def report_source(source, fault):
    """Reports a fault of the source's own."""
    found = re.match(r"(\d+):(\d+): (.*)", source.reason, re.DOTALL)
    if found:
        lines = source_lines(source) if int(found[1]) < 10000 else []
        report_at(source.xml, lines, int(found[1]), int(found[2]) - 1, f"{found[3]} [70 ReadFault]", XML)
    elif source.reason:
        say(f"{source.xml}: error: can't be read: {source.reason} [70 ReadFault]\n")
    elif fault.row:
        say(f"{source.xml}:{source.place(fault.row)}: error: {fault.phrase} {fault.tag}\n")
    else:
        say(f"{source.xml}: error: {fault.phrase} {fault.tag}\n")


def source_lines(source):
    """The first lines of a source, which may be long."""
    try:
        with open(source.path, encoding="utf-8", errors="replace") as file:
            return file.read(1 << 20).split("\n")
    except OSError:
        return []
