"""Tests what tools/xslt-xml says of arguments that the program refuses, and what --warn and --hints say, on a program in the place of the real one."""

import tempfile

from lib.message_tests import BODY, SHEET, reported, run_xml, write_files
from lib.shell_tests import STAND_IN

# What a stylesheet holds, and what --warn says.
WARNINGS = {
    "an attribute after a child": (
        '<a><b/><x:if test="1"><x:attribute name="c"/></x:if></a>',
        """\
s.xsl:3: warning: x:attribute comes after b of line 3: an attribute after a child is dropped (XSLT 1.0, 7.1.3)
  <a><b/><x:if test="1"><x:attribute name="c"/></x:if></a>
                        ^
"""),
    "an attribute after a text": (
        '<a>x<x:attribute name="c"/></a>',
        """\
s.xsl:3: warning: x:attribute comes after a text: an attribute after a child is dropped (XSLT 1.0, 7.1.3)
  <a>x<x:attribute name="c"/></a>
      ^
"""),
    "attributes that are none": ('<a><x:attribute name="b"/><x:attribute name="c"/><d><x:attribute name="e"/></d></a>', ""),
    "a data type": (
        '<x:for-each select="a"><x:sort data-type="numeric"/><x:sort data-type="{b}"/><x:sort data-type="text"/></x:for-each>',
        """\
s.xsl:3: warning: data-type="numeric" is neither text nor number, and sorts as text
  <x:for-each select="a"><x:sort data-type="numeric"/><x:sort data-type="{b}"/><x:sort data-type="text"/></x:for-each>
                                            ^
"""),
}
# A source, what a stylesheet holds, and what --hints says.
LAID_OUT = "<r>\n <item/>\n</r>"
HINTS = {
    "a default namespace": (
        '<r xmlns="urn:x"/>', '<x:template match="r"/>', """\
s.xsl:2: hint: r is in no namespace here, and in r.xml it is in urn:x: declare xmlns:p="urn:x" and write p:r
  <x:template match="r"/>
                     ^
"""),
    "a default namespace with a prefix": (
        '<r xmlns="urn:x"/>', '<x:template match="*" xmlns:q="urn:x"><x:copy-of select="r/@b"/></x:template>', """\
s.xsl:2: hint: r is in no namespace here, and in r.xml it is in urn:x: write q:r
  <x:template match="*" xmlns:q="urn:x"><x:copy-of select="r/@b"/></x:template>
                                                           ^
"""),
    "a mode": (
        "<r/>", '<x:template match="/"><x:apply-templates mode="lst"/></x:template>\n<x:template match="r" mode="list"/>', """\
s.xsl:2: hint: no template has mode lst, and the built-in rules give the text of all inside; did you mean list?
  <x:template match="/"><x:apply-templates mode="lst"/></x:template>
                                                 ^
s.xsl:3: hint: x:template is never used: no instruction applies templates of mode list; did you mean lst?
  <x:template match="r" mode="list"/>
                              ^
"""),
    "two rules for the same nodes": (
        "<r/>", '<x:template match="r"/>\n<x:template match="r"/><x:template match="r" priority="2"/>', """\
s.xsl:2: hint: match="r" never applies: the template of line 3 is for the same nodes, and comes later
  <x:template match="r"/>
                     ^
"""),
    "a rule that can't match": (
        LAID_OUT, '<x:template match="r/itme[no]"/><x:template match="@no|no"/><x:template match="r[no]"/>', """\
s.xsl:2: hint: match="r/itme[no]" matches nothing of r.xml: no element itme; did you mean item?
  <x:template match="r/itme[no]"/><x:template match="@no|no"/><x:template match="r[no]"/>
                       ^
"""),
    "white space": (
        LAID_OUT, '<x:template match="r"><x:apply-templates/></x:template>\n<x:template match="item"><x:value-of select="position()"/></x:template>', """\
s.xsl:3: hint: position() counts the white space between elements too, since x:apply-templates of line 2 selects all children: \
select="*" there, or an xsl:strip-space
  <x:template match="item"><x:value-of select="position()"/></x:template>
                                               ^
"""),
    "white space that is stripped": (
        LAID_OUT, '<x:strip-space elements="*"/><x:template match="r"><x:apply-templates/><x:value-of select="position()"/></x:template>', "",
    ),
    "positions in lists of elements": (
        LAID_OUT, '<x:template match="r"><x:apply-templates/><x:for-each select="*"><x:value-of select="position()"/></x:for-each></x:template>', "",
    ),
}
# Arguments, what the status is, and what is said.
ARGUMENTS = {
    "a budget": (["--budget", "0", "a=1"], "--budget 0: that is a whole number from 1 to 1,099,511,627,776"),
    "a word": (["--workers=x", "a=1"], "--workers x: that is a whole number from 1 to 64"),
    "no value": (["a=1", "--grain"], "--grain needs a value"),
    "an option twice": (["--stats", "--stats", "a=1"], "option --stats is given twice"),
    "a parameter twice": (["a=1", "a=1"], "parameter a is given twice"),
    "a value that is too much": (["--stats=1", "a=1"], "option --stats has no value"),
    "what is not supported": (["--stream", "a=1"], "--stream is not supported yet"),
    "an unknown option": (["--bugdet=5"], "option --bugdet is not known; did you mean --budget?"),
}


def test(tests):
    for name, (body, wanted) in WARNINGS.items():
        with tempfile.TemporaryDirectory() as folder:
            write_files(folder, {"s.xsl": BODY.format(body), "r.xml": "<r/>"})
            for option, said in (("--warn", wanted), ("--time", "")):
                err = run_xml(folder, "xslt-xml", "--program", STAND_IN, option, "--check", "s.xsl")[2]
                lines = [line for line in reported(err).splitlines(True) if not line.startswith("xslt-xml: s.xsl: ")]
                tests.check(f"{option}: {name}", "".join(lines), said)
    for name, (source, body, wanted) in HINTS.items():
        with tempfile.TemporaryDirectory() as folder:
            write_files(folder, {"s.xsl": SHEET.format(body), "r.xml": source})
            err = run_xml(folder, "xslt-xml", "--program", STAND_IN, "--hints", "s.xsl", "r.xml")[2]
            tests.check(f"--hints: {name}", reported(err), wanted)
    for name, (arguments, wanted) in ARGUMENTS.items():
        with tempfile.TemporaryDirectory() as folder:
            write_files(folder, {"s.xsl": BODY.format(""), "r.xml": "<r/>"})
            status, result, err = run_xml(folder, "xslt-xml", "--program", STAND_IN, "s.xsl", "r.xml", *arguments)
            said = [line for line in err.splitlines() if line.startswith("xslt-xml: ")]
            tests.check(f"arguments: {name}", (status, result, said), (1, "", [f"xslt-xml: {wanted}"]))
