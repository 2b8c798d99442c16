(xsl:stylesheet
Axmlns:xsl http://www.w3.org/1999/XSL/Transform
Aversion 1.0
(xsl:output
Amethod text
)xsl:output
(xsl:template
Amatch /
-Failed:
(xsl:for-each
Aselect log/step
(xsl:for-each
Aselect warning
(xsl:message
-warning: 
(xsl:value-of
Aselect .
)xsl:value-of
)xsl:message
)xsl:for-each
(xsl:if
Atest state = 'failed'
(xsl:message
(xsl:value-of
Aselect name
)xsl:value-of
- failed: 
(xsl:value-of
Aselect reason
)xsl:value-of
)xsl:message
- 
(xsl:value-of
Aselect name
)xsl:value-of
-,
)xsl:if
)xsl:for-each
- end of the log.
)xsl:template
)xsl:stylesheet
