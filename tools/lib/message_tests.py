"""Tests what tools/xslt-xml and tools/check-xml report, on a program in the place of the real one, and on that where it is built."""

import tempfile

from lib.messages import nearest, xpath
from lib.shell_tests import BODY, SHEET, programs, reported, run_xml, write_files

# Mistakes: what a stylesheet holds in its template or besides, the status, and the reports.
MISTAKES = {
    "a variable": (
        '<x:variable name="prefix" select="1"/>\n  <x:value-of select="concat($noprefix, 1)"/>',
        3, """\
s.xsl:4: error: variable $noprefix is not in scope; did you mean $prefix? [39 UnknownVariable]
    <x:value-of select="concat($noprefix, 1)"/>
                               ^
"""),
    "a variable on a later line": (
        "<x:value-of\n\tselect='&quot;a&quot; = $no'/>",
        3, """\
s.xsl:4: error: variable $no is not in scope [39 UnknownVariable]
  \tselect='&quot;a&quot; = $no'/>
  \t                        ^
"""),
    "no expression": (
        """<x:value-of select="item[@sku='a'"/>""",
        3, """\
s.xsl:3: error: select="item[@sku='a'" is no expression: it ends where ] is expected [20 Syntax]
  <x:value-of select="item[@sku='a'"/>
                                   ^
"""),
    "a function": (
        '<x:value-of select="upper-case(.)"/>',
        3, """\
s.xsl:3: error: function upper-case is not known [21 UnknownFunction]
  <x:value-of select="upper-case(.)"/>
                      ^
"""),
    "an element": (
        '<x:apply-template select="a"/>',
        3, """\
s.xsl:3: error: x:apply-template is no element of XSLT; did you mean x:apply-templates? [37 Misplaced]
  <x:apply-template select="a"/>
  ^
"""),
    "an attribute": (
        '<x:value-of seelct="a"/>',
        3, """\
s.xsl:3: error: x:value-of needs select, and seelct is not known; did you mean select? [34 MissingAttribute]
  <x:value-of seelct="a"/>
              ^
"""),
    "a template": (
        '<x:call-template name="fooo"/>\n</x:template><x:template name="foo">',
        3, """\
s.xsl:3: error: no template has the name fooo; did you mean foo? [43 UnknownTemplate]
  <x:call-template name="fooo"/>
                         ^
"""),
    "endless recursion": (
        '<x:call-template name="endless"/>\n</x:template><x:template name="endless"><x:call-template name="endless"/>',
        4, """\
s.xsl:4: error: templates nest more than 16,384 deep: the call of template endless in x:template endless comes back \
without end [55 TooDeep]
  </x:template><x:template name="endless"><x:call-template name="endless"/>
                                                                 ^
"""),
    "a stray text": (
        '<x:choose>\n\n  stray\n  <x:when test="1"/></x:choose>',
        3, """\
s.xsl:5: error: x:choose may not hold text [37 Misplaced]
    stray
    ^
"""),
    "a function of XSLT 1.0": (
        '<x:value-of select="format-number(1, 2)"/>',
        3, """\
s.xsl:3: error: function format-number is of XSLT 1.0, and not supported here [21 UnknownFunction]
  <x:value-of select="format-number(1, 2)"/>
                      ^
"""),
    "a declaration of XSLT 1.0": (
        '</x:template><x:decimal-format/><x:template match="a">',
        3, """\
s.xsl:3: error: x:decimal-format is of XSLT 1.0, and not supported here [33 Unsupported]
  </x:template><x:decimal-format/><x:template match="a">
               ^
"""),
    "a number that is no whole number": (
        '<x:value-of select="0.5"/>',
        3, """\
s.xsl:3: error: number 0.5 is no whole number, and only those are supported [23 BadLiteral]
  <x:value-of select="0.5"/>
                      ^
"""),
    "a fraction": (
        '<x:value-of select="7 div 2"/>',
        4, """\
s.xsl:3: error: only whole numbers are supported, and select="7 div 2" reads or gives a fraction [51 Fraction]
  <x:value-of select="7 div 2"/>
                        ^
"""),
    "a fraction in a sort key": (
        '<x:for-each select="//@p">\n<x:sort data-type="number" select="."/></x:for-each>',
        4, """\
s.xsl:4: error: only whole numbers are supported, and select="." reads or gives a fraction [51 Fraction]
  <x:sort data-type="number" select="."/></x:for-each>
                                     ^
"""),
    "a tree fragment": (
        '<x:variable name="tree"><a/></x:variable>\n<x:for-each select="$tree/a"/>',
        4, """\
s.xsl:4: error: a node-set is needed, and variable $tree of line 3 holds what its content gives, which is a result tree \
fragment: only select gives a node-set (XSLT 1.0, 11.1) [53 NotNodes]
  <x:for-each select="$tree/a"/>
                      ^
"""),
    "no node-set": (
        """<x:value-of select="count('a')"/>""",
        4, """\
s.xsl:3: error: function count needs a node-set, and 'a' is none [53 NotNodes]
  <x:value-of select="count('a')"/>
                            ^
"""),
    "a key": (
        """<x:value-of select="key('by-sk', 1)"/></x:template><x:key name="by-sku" match="a" use="b"/><x:template match="a">""",
        4, """\
s.xsl:3: error: no key has the name by-sk; did you mean by-sku? [54 NoKey]
  <x:value-of select="key('by-sk', 1)"/></x:template><x:key name="by-sku" match="a" use="b"/><x:template match="a">
                          ^
"""),
    "a key without quotes": (
        """<x:value-of select="key(by-sku, 1)"/></x:template><x:key name="by-sku" match="a" use="b"/><x:template match="a">""",
        4, """\
s.xsl:3: error: by-sku is a path here: the name of a key is a string, as in key('by-sku', ..) [54 NoKey]
  <x:value-of select="key(by-sku, 1)"/></x:template><x:key name="by-sku" match="a" use="b"/><x:template match="a">
                          ^
"""),
    "a key by a variable": (
        """<x:variable name="k" select="'1a'"/>\n<x:value-of select="key($k, 1)"/>""",
        4, """\
s.xsl:4: error: no key has the name 1a: that is what $k gives [54 NoKey]
  <x:value-of select="key($k, 1)"/>
                          ^
"""),
    "a name of the result": (
        """<x:variable name="k" select="'1a'"/>\n<x:element name="{$k}"/>""",
        4, """\
s.xsl:4: error: the result can't have the name 1a, which is no name: that is what name="{$k}" gives [60 BadResultName]
  <x:element name="{$k}"/>
                   ^
"""),
    "a declaration as an attribute": (
        '<a><x:attribute name="xmlns"/></a>',
        4, """\
s.xsl:3: error: the result can't have the name xmlns, which declares a namespace [60 BadResultName]
  <a><x:attribute name="xmlns"/></a>
                        ^
"""),
    "a prefix of the result": (
        '<x:element name="p:a" xmlns:q="u"/>',
        4, """\
s.xsl:3: error: prefix p of the name p:a is not bound here [61 UnboundResultPrefix]
  <x:element name="p:a" xmlns:q="u"/>
                   ^
"""),
    "two mistakes on two elements": (
        '<x:if test="a">\n<x:value-of select="$no"/></x:if>\n<x:apply-template/>',
        3, """\
s.xsl:4: error: variable $no is not in scope [39 UnknownVariable]
  <x:value-of select="$no"/></x:if>
                      ^
s.xsl:5: error: x:apply-template is no element of XSLT; did you mean x:apply-templates? [37 Misplaced]
  <x:apply-template/>
  ^
"""),
    "more than ten mistakes": (
        "<x:apply-template/>\n" * 12,
        3, "".join(
            f"s.xsl:{line}: error: x:apply-template is no element of XSLT; did you mean x:apply-templates? [37 Misplaced]\n"
            "  <x:apply-template/>\n  ^\n" for line in range(3, 13)
        )),
}

# Mistakes between files: the files, the arguments, the status, and the reports.
FILES = {
    "a module that is not there": (
        {"d/s.xsl": SHEET.format('<x:import href="no.xsl"/>'), "r.xml": "<r/>"}, ["d/s.xsl", "r.xml"], 2, """\
d/s.xsl:2: error: module d/no.xsl can't be read: No such file or directory [70 ReadFault]
  <x:import href="no.xsl"/>
                  ^
"""),
    "a module that is no XML": (
        {"s.xsl": SHEET.format('<x:include href="a.xsl"/>'), "a.xsl": "<a>\n<b></a>", "r.xml": "<r/>"}, ["s.xsl", "r.xml"], 2, """\
a.xsl:2:6: error: mismatched tag [70 ReadFault]
  <b></a>
       ^
s.xsl:2: note: a.xsl is mentioned here
  <x:include href="a.xsl"/>
                   ^
"""),
    "a stylesheet that is not there": ({"r.xml": "<r/>"}, ["s.xsl", "r.xml"], 2, "s.xsl: error: can't be read: No such file or directory [70 ReadFault]\n"),
    "a source that is not there": (
        {"s.xsl": BODY.format("")}, ["s.xsl", "r.xml"], 2, "r.xml: error: can't be read: No such file or directory [70 ReadFault]\n"
    ),
    "a source that is no XML": (
        {"s.xsl": BODY.format(""), "r.xml": "<r>\n <b></r>"}, ["s.xsl", "r.xml"], 2, "r.xml:2:7: error: mismatched tag [70 ReadFault]\n   <b></r>\n        ^\n"
    ),
    "a circle": (
        {"s.xsl": SHEET.format('<x:include href="s.xsl"/>'), "r.xml": "<r/>"}, ["s.xsl", "r.xml"], 3, """\
s.xsl:2: error: href="s.xsl": the module would be a part of itself [30 CircularModule]
  <x:include href="s.xsl"/>
                   ^
"""),
}

# Texts that are no expressions, where they stop being one, and why.
NO_EXPRESSIONS = {
    "a[": (2, "it ends where an expression is expected"),
    "a b": (2, "b where an operator or the end is expected"),
    "concat('a',)": (11, ") where an expression is expected"),
    "foo::a": (0, "foo where an axis is expected"),
    "'abc": (0, "the quote is not closed"),
    "a//": (3, "it ends where an expression is expected"),
    "$": (1, "it ends where the name of a variable is expected"),
    "a = (b": (6, "it ends where ) is expected"),
}
EXPRESSIONS = (
    "* * *", "div div div", "/", "/ = 1", "-(1) * -$p:x", "key('a', @b)/c | d", "a:*", "processing-instruction('x')",
    "..", "self::node()", "@*|node()", ".5", "a-b", "position() mod 2 = 0", "//a[1][@b]/@*", "(//a)[1]/b", "/*/text()",
)


def test(tests):
    """Each mistake is reported as a compiler would."""
    for program in programs():
        for name, (body, status, wanted) in MISTAKES.items():
            with tempfile.TemporaryDirectory() as folder:
                write_files(folder, {"s.xsl": BODY.format(body), "r.xml": "<r p='0.5'/>"})
                got = run_xml(folder, "xslt-xml", "--program", program, "s.xsl", "r.xml")
                tests.check("report: " + name, (got[0], got[1], reported(got[2])), (status, "", wanted))
        for name, (files, arguments, status, wanted) in FILES.items():
            with tempfile.TemporaryDirectory() as folder:
                write_files(folder, files)
                got = run_xml(folder, "xslt-xml", "--program", program, *arguments)
                tests.check("report: " + name, (got[0], got[1], reported(got[2])), (status, "", wanted))
    for text, wanted in NO_EXPRESSIONS.items():
        fault = xpath.read(text).fault
        tests.check("no expression: " + text, (fault.place, fault.reason) if fault else None, wanted)
    for text in EXPRESSIONS:
        tests.check("expression: " + text, xpath.read(text).fault, None)
    for name, names, wanted in (
        ("prefx", ["prefix", "suffix"], "prefix"), ("x", ["y"], None), ("apply-template", ["call-template", "apply-templates"], "apply-templates"),
    ):
        tests.check("nearest: " + name, nearest.nearest(name, names), wanted)
