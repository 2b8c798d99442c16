(xsl:stylesheet
Axmlns:xsl http://www.w3.org/1999/XSL/Transform
Aversion 1.0
(xsl:output
Amethod text
)xsl:output
(xsl:template
Amatch /
-Seats taken: 
(xsl:value-of
Aselect hall/taken
)xsl:value-of
-.
)xsl:template
)xsl:stylesheet
