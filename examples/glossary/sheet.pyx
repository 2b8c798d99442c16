(xsl:stylesheet
Axmlns:xsl http://www.w3.org/1999/XSL/Transform
Aversion 1.0
(xsl:output
Amethod text
)xsl:output
(xsl:template
Amatch /
-Words about trees: 
(xsl:for-each
Aselect glossary/entry
(xsl:if
Atest area = 'tree'
-[
(xsl:value-of
Aselect term
)xsl:value-of
-] 
(xsl:value-of
Aselect meaning
)xsl:value-of
(xsl:if
Atest see
- (see 
(i
(xsl:value-of
Aselect see
)xsl:value-of
)i
-)
)xsl:if
-. 
)xsl:if
)xsl:for-each
)xsl:template
)xsl:stylesheet
