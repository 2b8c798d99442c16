(xsl:stylesheet
Axmlns:xsl http://www.w3.org/1999/XSL/Transform
Aversion 1.0
(xsl:output
Amethod text
)xsl:output
(xsl:template
Amatch /
-Sold in March: 
(xsl:value-of
Aselect sales/march
)xsl:value-of
)xsl:template
)xsl:stylesheet
