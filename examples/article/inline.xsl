<?xml version="1.0"?>
<xsl:stylesheet version="1.0" xmlns:xsl="http://www.w3.org/1999/XSL/Transform">
  <xsl:template match="emphasis"><em><xsl:apply-templates/></em></xsl:template>
  <xsl:template match="emphasis[@role = 'strong']"><strong><xsl:apply-templates/></strong></xsl:template>
  <xsl:template match="literal"><code><xsl:apply-templates/></code></xsl:template>
  <xsl:template match="link"><a href="{@url}"><xsl:apply-templates/></a></xsl:template>
  <xsl:template match="*"><span class="{local-name()}"><xsl:apply-templates/></span></xsl:template>
</xsl:stylesheet>
