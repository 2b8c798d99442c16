<?xml version="1.0"?>
<xsl:stylesheet version="1.0" xmlns:xsl="http://www.w3.org/1999/XSL/Transform" xmlns:s="urn:stock" exclude-result-prefixes="s">
  <xsl:template match="@*|node()">
    <xsl:copy><xsl:apply-templates select="@*|node()"/></xsl:copy>
  </xsl:template>
  <!-- the one change: a price in euros becomes one in cents -->
  <xsl:template match="s:item/@price">
    <xsl:attribute name="cents"><xsl:value-of select="concat(substring-before(., '.'), substring-after(., '.'))"/></xsl:attribute>
  </xsl:template>
</xsl:stylesheet>
