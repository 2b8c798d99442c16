"""How the result of a stylesheet is written: what its xsl:output says (XSLT 1.0, 16), as the options of pyx2xml have it."""

import re

from lib import encoder

CHOICE = ("yes", "no")
# Of each option the values that it has, where it has few.
OPTIONS = {
    "method": ("xml", "html"), "indent": CHOICE, "standalone": CHOICE, "omit-xml-declaration": CHOICE, "encoding": None,
    "version": None, "doctype-public": None, "doctype-system": None, "cdata-section-elements": None,
}
CDATA_NAME = re.compile(r"(?:\{([^}]*)\})?([^ \t\r\n]+)")


class Settings:
    """What is said, by the names of the options; of cdata-section-elements names {URI}LOCAL or LOCAL between spaces."""

    def __init__(self, said=()):
        self.said = {name: value for name, value in dict(said).items() if name in OPTIONS}
        self.method = self.said.get("method")  # None: as the first element says
        self.indent = self.said.get("indent")
        self.encoding = self.said.get("encoding", "UTF-8")
        names = CDATA_NAME.findall(self.said.get("cdata-section-elements", ""))
        self.cdata = {(uri, local) for uri, local in names}

    def get(self, name):
        return self.said.get(name)

    def arguments(self):
        """The options of pyx2xml that say the same."""
        return [f"--{name}={value}" for name, value in self.said.items()]

    def is_plain_xml(self):
        """Whether a result is written as XML part by part, as it comes: in UTF-8, not indented, without a document type
        declaration and CDATA sections."""
        is_whole = self.indent == "yes" or "doctype-system" in self.said or self.cdata
        return self.method == "xml" and self.encoding.upper() == "UTF-8" and not is_whole


def usable(said):
    """What an xsl:output says in a way that can be followed: another method is XML, an encoding that is not known UTF-8."""
    made = {name: value for name, value in said.items() if name in OPTIONS and not fault({name: value})}
    if "method" in said:
        made.setdefault("method", "xml")
    return made


def fault(said):
    """Why settings are refused, or nothing."""
    for name, value in said.items():
        if OPTIONS.get(name) and value not in OPTIONS[name]:
            return f"{name} is {' or '.join(OPTIONS[name])}, and not {value}"
    if not encoder.is_known(said.get("encoding", "UTF-8")):
        return f"the encoding {said['encoding']} is not known"
    return ""
