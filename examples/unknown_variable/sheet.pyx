(xsl:stylesheet
Axmlns:xsl http://www.w3.org/1999/XSL/Transform
Aversion 1.0
(xsl:output
Amethod text
)xsl:output
(xsl:variable
Aname currency
Aselect 'EUR'
)xsl:variable
(xsl:template
Amatch /
-Total: 
(xsl:value-of
Aselect concat(inv/total, $curency)
)xsl:value-of
)xsl:template
)xsl:stylesheet
