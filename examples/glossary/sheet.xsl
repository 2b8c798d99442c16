<xsl:stylesheet xmlns:xsl="http://www.w3.org/1999/XSL/Transform" version="1.0"
><xsl:output method="text"/><xsl:template match="/"
>Words about trees: <xsl:for-each select="glossary/entry"
><xsl:if test="area = 'tree'"
>[<xsl:value-of select="term"/>] <xsl:value-of select="meaning"
/><xsl:if test="see"
> (see <i><xsl:value-of select="see"/></i>)</xsl:if
>. </xsl:if
></xsl:for-each
></xsl:template
></xsl:stylesheet>
