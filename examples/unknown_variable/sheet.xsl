<xsl:stylesheet xmlns:xsl="http://www.w3.org/1999/XSL/Transform" version="1.0"
><xsl:output method="text"/><xsl:variable name="currency" select="'EUR'"/><xsl:template match="/"
>Total: <xsl:value-of select="concat(inv/total, $curency)"/></xsl:template
></xsl:stylesheet>
