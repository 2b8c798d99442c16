"""Tests of tools/rows: row files that are kept as XML, and that the committed ones are what it writes."""

import os
import subprocess
import sys

TOOLS = os.path.join(os.path.dirname(os.path.abspath(__file__)), "..")

# A row file that is kept as XML, and what becomes of it: white space that is only layout goes, all other stays.
ROW_FILE = (
    """# <b/>
= row one
= templates
  <xsl:template
      match="/">
    <b> <c/>
    </b>
    <xsl:text>
      y
</xsl:text>
    x <d/>
  </xsl:template>

  <!--1
  2-->
  <p:e xmlns:p="u">&#10;<?f g?></p:e>

= result
(b
)b

1 ==> <2>
""",
    """# <b/>
= row one
= templates
(xsl:template
Amatch /
(b
- 
(c
)c
)b
(xsl:text
-\\n      y\\n
)xsl:text
-\\n    x 
(d
)d
)xsl:template
C1\\n  2
(p:e
Axmlns:p u
-\\n
?f g
)p:e

= result
(b
)b

1 ==> <2>
""",
)

# Row files that are refused, and why.
BAD_ROWS = {
    "a wrong end tag": ("= sheet\n\n <a>\n\n </b>\n", "f:5: mismatched tag"),
    "an unbound prefix": ("# 1\n= row\n= source\n<a>\n<p:b/></a>\n", "f:5: unbound prefix"),
}


def test(tests, rows):
    """Row files from XML, and that what tools/rows writes is what the repository has; `rows` is that script as a module."""
    text, wanted = ROW_FILE
    tests.check("rows: parts that are XML", rows.as_lines(text, "f"), wanted)
    for name, (text, reason) in BAD_ROWS.items():
        try:
            got = rows.as_lines(text, "f")
        except rows.Refused as fault:
            got = str(fault)
        tests.check("rows: " + name, got, reason)
    done = subprocess.run([sys.executable, os.path.join(TOOLS, "rows"), "--check"], capture_output=True, check=False)
    tests.check("rows --check", (done.returncode, done.stderr.decode()), (0, ""))
