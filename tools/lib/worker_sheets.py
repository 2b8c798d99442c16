"""Sources and stylesheets whose runs fall into many pieces: what `tools/test --workers` runs by several workers.

Of each stylesheet: the source, and what it holds, with the prefix x for XSLT's namespace and t for templates that it calls."""

SHEET = '<x:stylesheet xmlns:x="http://www.w3.org/1999/XSL/Transform" version="1.0">{}</x:stylesheet>'


def flat():
    """A list of items with numbers, names and groups."""
    names = ["ash", "birch", "cedar", "", "elm", "fir", "gum"]
    return "<r>" + "".join(f'<e n="{n}" k="{n * 7 % 11}">{names[n * 5 % 7]}{n * 37 % 101}</e>' for n in range(200)) + "</r>"


def nested(levels=5, children=4):
    """A tree of so many levels with so many children a node."""
    if not levels:
        return "<leaf>l</leaf>"
    return f'<n d="{levels}">{nested(levels - 1, children) * children}</n>'


def uneven():
    """A list of lists, of which few are long."""
    return "<r>" + "".join(f'<g n="{g}">' + "<e/>" * (90 if g % 9 == 4 else 2) + "</g>" for g in range(40)) + "</r>"


SOURCES = {"flat": flat(), "nested": nested(), "uneven": uneven()}

ALL = '<x:template match="/">{}</x:template>'
EACH = ALL.format('<x:for-each select="r/e">{}</x:for-each>')
COPY = '<x:template match="@*|node()"><x:copy><x:apply-templates select="@*|node()"/></x:copy></x:template>'

STYLESHEETS = {
    "copy of all": ("nested", COPY),
    "copy of lists of different lengths": ("uneven", COPY),
    "fault in the middle": ("flat", EACH.format('<a v="{12 div (@n - 117)}"/><x:value-of select="720720 div (1 + @n mod 16)"/>')),
    "many faults, the first by the longest way": ("uneven", ALL.format(
        '<x:for-each select="r/g"><x:if test="@n = 4"><x:for-each select="//e"><a/></x:for-each><x:value-of select="1 div 2"/></x:if>'
        '<x:if test="@n &gt; 20"><x:value-of select="key(\'none\', 1)"/></x:if></x:for-each>')),
    "messages": ("flat", EACH.format('<x:message><x:value-of select="@n"/>: <x:value-of select="."/></x:message><b/>')),
    "messages in loops in messages": ("uneven", ALL.format(
        '<x:for-each select="r/g"><x:message><x:for-each select="e"><x:value-of select="position()"/>,</x:for-each></x:message></x:for-each>')),
    "ended by a message": ("uneven", ALL.format(
        '<x:for-each select="r/g"><x:for-each select="e"><x:message terminate="no">m</x:message><x:if test="../@n = 31 and position() = 2">'
        '<x:message terminate="yes">end</x:message></x:if><c/></x:for-each></x:for-each>')),
    "without an end": ("flat", '<x:template match="/|e"><x:apply-templates select="//e[position() &lt; 20]"/></x:template>'),
    "without an end, and a fault": ("flat",
        '<x:template match="/|e"><x:apply-templates select="/r/e[position() &lt; 19]"/><x:value-of select="1 div 3"/></x:template>'),
    "sorted by texts and numbers": ("flat", ALL.format(
        '<x:for-each select="r/e"><x:sort select="substring(., 1, 1)"/><x:sort select="@k" data-type="number" order="descending"/>'
        '<s><x:copy-of select="@n"/><x:value-of select="position()"/></s></x:for-each>')),
    "sorted rules": ("uneven", ALL.format('<x:apply-templates select="r/g"><x:sort select="count(e)" data-type="number"/></x:apply-templates>')
        + '<x:template match="g"><g><x:apply-templates select="e"/></g></x:template><x:template match="e"><x:value-of select="last()"/></x:template>'),
    "keys": ("flat", '<x:key name="k" match="e" use="@k"/>' + EACH.format(
        '<k><x:for-each select="key(\'k\', @k)"><x:value-of select="@n"/>;</x:for-each></k>')),
    "three loops": ("nested", ALL.format(
        '<x:for-each select="n/n"><a><x:for-each select="n"><x:for-each select=".//leaf"><x:value-of select="position()"/></x:for-each></x:for-each></a>'
        '</x:for-each>')),
    "loops in captured content": ("uneven", ALL.format(
        '<x:for-each select="r/g"><x:variable name="v"><x:for-each select="e"><v><x:value-of select="position()"/></v></x:for-each></x:variable>'
        '<w l="{string-length($v)}"><x:copy-of select="$v"/></w></x:for-each>')),
    "loops in attributes, comments, instructions": ("uneven", ALL.format(
        '<x:for-each select="r/g"><a><x:attribute name="b"><x:for-each select="e">x</x:for-each></x:attribute><x:comment><x:for-each select="e">-'
        '</x:for-each></x:comment><x:processing-instruction name="p"><x:apply-templates select="e"/></x:processing-instruction></a></x:for-each>')),
    "numbers": ("nested", '<x:template match="n"><x:number level="multiple" format="1.a"/> <x:number level="any"/>;<x:apply-templates/></x:template>'
        '<x:template match="leaf"/>'),
    "parameters": ("nested", ALL.format('<x:apply-templates><x:with-param name="p"><q>0</q></x:with-param></x:apply-templates>')
        + '<x:template match="n"><x:param name="p"/><x:param name="q" select="@d"/><x:apply-templates><x:with-param name="p"><x:copy-of select="$p"/>'
        '<x:value-of select="$q"/></x:with-param></x:apply-templates></x:template>'
        '<x:template match="leaf"><x:param name="p"/><x:copy-of select="$p"/></x:template>'),
    "named templates": ("uneven", ALL.format(
        '<x:for-each select="r/g"><x:call-template name="t"><x:with-param name="n" select="@n"/></x:call-template></x:for-each>')
        + '<x:template name="t"><x:param name="n"/><x:if test="$n &gt; 0"><x:value-of select="$n"/><x:for-each select="e">.</x:for-each>'
        '<x:call-template name="t"><x:with-param name="n" select="$n - 9"/></x:call-template></x:if></x:template>'),
    "attribute sets and globals": ("flat",
        '<x:variable name="g" select="count(//e)"/><x:attribute-set name="s"><x:attribute name="a"><x:value-of select="$g - @n"/></x:attribute></x:attribute-set>'
        + EACH.format('<f x:use-attribute-sets="s"><x:value-of select="$g"/></f>')),
    "texts": ("nested",
        '<x:output method="text"/><x:template match="n">(<x:value-of select="concat(@d, \':\', count(.//leaf))"/><x:apply-templates/>)</x:template>'),
    "the same pieces again and again": ("flat", ALL.format(
        '<x:for-each select="r/e[position() &lt; 40]"><x:variable name="x" select="."/><x:for-each select="../e[@k = $x/@k]"><y z="{$x/@n}"/></x:for-each>'
        '</x:for-each>')),
}
