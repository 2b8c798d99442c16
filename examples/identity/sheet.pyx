(xsl:stylesheet
Aversion 1.0
Axmlns:xsl http://www.w3.org/1999/XSL/Transform
Axmlns:s urn:stock
Aexclude-result-prefixes s
-\n  
(xsl:template
Amatch @*|node()
-\n    
(xsl:copy
(xsl:apply-templates
Aselect @*|node()
)xsl:apply-templates
)xsl:copy
-\n  
)xsl:template
-\n  
C the one change: a price in euros becomes one in cents 
-\n  
(xsl:template
Amatch s:item/@price
-\n    
(xsl:attribute
Aname cents
(xsl:value-of
Aselect concat(substring-before(., '.'), substring-after(., '.'))
)xsl:value-of
)xsl:attribute
-\n  
)xsl:template
-\n
)xsl:stylesheet
