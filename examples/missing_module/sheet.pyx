(xsl:stylesheet
Axmlns:xsl http://www.w3.org/1999/XSL/Transform
Aversion 1.0
(xsl:output
Amethod text
)xsl:output
(xsl:include
Ahref table.pyx
)xsl:include
)xsl:stylesheet
