(xsl:stylesheet
Axmlns:xsl http://www.w3.org/1999/XSL/Transform
Aversion 1.0
(xsl:output
Amethod text
)xsl:output
(xsl:template
Amatch /
-Jobs: 
(xsl:for-each
Aselect queue/job
(xsl:message
-waiting for 
(xsl:value-of
Aselect .
)xsl:value-of
)xsl:message
-.
)xsl:for-each
)xsl:template
)xsl:stylesheet
