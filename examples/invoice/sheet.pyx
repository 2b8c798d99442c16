(xsl:stylesheet
Axmlns:xsl http://www.w3.org/1999/XSL/Transform
Aversion 1.0
(xsl:output
Amethod text
)xsl:output
(xsl:template
Amatch /
-Invoice 
(b
(xsl:value-of
Aselect invoice/number
)xsl:value-of
)b
- of 
(xsl:value-of
Aselect invoice/date
)xsl:value-of
-, 
(xsl:value-of
Aselect invoice/seller/name
)xsl:value-of
- to 
(xsl:value-of
Aselect invoice/customer/name
)xsl:value-of
-, 
(xsl:value-of
Aselect invoice/customer/city
)xsl:value-of
-. First of its lines: 
(xsl:value-of
Aselect invoice/line
)xsl:value-of
-. Net 
(xsl:value-of
Aselect invoice/totals/net
)xsl:value-of
-, tax 
(xsl:value-of
Aselect invoice/totals/tax
)xsl:value-of
-, discount 
(xsl:value-of
Aselect invoice/totals/discount
)xsl:value-of
-, due 
(b
(xsl:value-of
Aselect invoice/totals/due
)xsl:value-of
)b
-.
)xsl:template
)xsl:stylesheet
