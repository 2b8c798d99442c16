<xsl:stylesheet xmlns:xsl="http://www.w3.org/1999/XSL/Transform" version="1.0"
><xsl:output method="text"/><xsl:template match="/"
>Jobs: <xsl:for-each select="queue/job"
><xsl:message>waiting for <xsl:value-of select="."/></xsl:message
>.</xsl:for-each
></xsl:template
></xsl:stylesheet>
