<?xml version="1.0"?>
<xsl:stylesheet version="1.0" xmlns:xsl="http://www.w3.org/1999/XSL/Transform">
  <xsl:import href="inline.xsl"/>
  <xsl:output method="html"/>
  <xsl:strip-space elements="article section itemizedlist info"/>

  <xsl:template match="/article">
    <html>
      <head><title><xsl:value-of select="info/title"/></title></head>
      <body>
        <xsl:processing-instruction name="toc">depth="2"</xsl:processing-instruction>
        <ul class="toc">
          <xsl:apply-templates select="section" mode="toc"/>
        </ul>
        <xsl:apply-templates select="section"/>
      </body>
    </html>
  </xsl:template>

  <xsl:template match="section" mode="toc">
    <li><a href="#{generate-id()}"><xsl:value-of select="title"/></a></li>
  </xsl:template>

  <xsl:template match="section">
    <div id="{generate-id()}"><xsl:apply-templates/></div>
  </xsl:template>

  <xsl:template match="section/title">
    <xsl:element name="h{count(ancestor::section) + 1}"><xsl:apply-templates/></xsl:element>
  </xsl:template>

  <xsl:template match="para"><p><xsl:apply-templates/></p></xsl:template>
  <xsl:template match="itemizedlist"><ul><xsl:apply-templates/></ul></xsl:template>
  <xsl:template match="listitem"><li><xsl:apply-templates select="para/node()"/></li></xsl:template>
  <xsl:template match="link[@linkend]">
    <xsl:apply-imports/>
    <xsl:text> (</xsl:text><xsl:value-of select="//section[@id = current()/@linkend]/title"/><xsl:text>)</xsl:text>
  </xsl:template>
</xsl:stylesheet>
