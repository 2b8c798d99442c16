(xsl:stylesheet
Aversion 1.0
Axmlns:xsl http://www.w3.org/1999/XSL/Transform
-\n  
(xsl:template
Amatch emphasis
(em
(xsl:apply-templates
)xsl:apply-templates
)em
)xsl:template
-\n  
(xsl:template
Amatch emphasis[@role = 'strong']
(strong
(xsl:apply-templates
)xsl:apply-templates
)strong
)xsl:template
-\n  
(xsl:template
Amatch literal
(code
(xsl:apply-templates
)xsl:apply-templates
)code
)xsl:template
-\n  
(xsl:template
Amatch link
(a
Ahref {@url}
(xsl:apply-templates
)xsl:apply-templates
)a
)xsl:template
-\n  
(xsl:template
Amatch *
(span
Aclass {local-name()}
(xsl:apply-templates
)xsl:apply-templates
)span
)xsl:template
-\n
)xsl:stylesheet
