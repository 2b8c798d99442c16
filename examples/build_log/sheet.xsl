<xsl:stylesheet xmlns:xsl="http://www.w3.org/1999/XSL/Transform" version="1.0"
><xsl:output method="text"/><xsl:template match="/"
>Failed:<xsl:for-each select="log/step"
><xsl:for-each select="warning"
><xsl:message>warning: <xsl:value-of select="."/></xsl:message></xsl:for-each
><xsl:if test="state = 'failed'"
><xsl:message><xsl:value-of select="name"/> failed: <xsl:value-of select="reason"/></xsl:message
> <xsl:value-of select="name"/>,</xsl:if
></xsl:for-each
> end of the log.</xsl:template
></xsl:stylesheet>
