"""Warnings of a stylesheet: what it asks of the result that is not done."""

from lib import encoder
from lib.messages import reports
from lib.messages.findings import Finding
from lib.modules import UNESCAPED

ALWAYS = f'{UNESCAPED}="yes" has no effect: all text of the result is escaped (XSLT 1.0, 16.4, leaves that open)'


def warn(folder, said):
    """Reports what the stylesheet in a folder, whose outputs say this, asks for in vain, each kind once."""
    encoding = said.get("encoding", "UTF-8")
    if not encoder.is_known(encoding):
        for module, element in outputs(folder):
            if element.get("encoding") == encoding:
                text = f"the encoding {encoding} is not known: the result is written in UTF-8"
                reports.report(module, Finding(text, element, "encoding", 0), "", "warning")
                break
    if said.get("method") == "text":
        return  # no text is escaped
    module = next((each for each in folder.modules.values() if each.unescaped), None)
    if module:
        reports.report(module, Finding(ALWAYS, module.unescaped, UNESCAPED), "", "warning")


def outputs(folder):
    """The xsl:output elements of all modules, each with its module."""
    for module in folder.modules.values():
        for kind, _, element in module.parts:
            if kind == "output":
                yield module, element
