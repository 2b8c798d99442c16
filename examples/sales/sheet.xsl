<xsl:stylesheet xmlns:xsl="http://www.w3.org/1999/XSL/Transform" version="1.0">
  <xsl:output method="text"/>
  <xsl:key name="of-region" match="sale" use="@region"/>
  <xsl:key name="of-article" match="sale" use="concat(@region, '/', @article)"/>

  <!-- The first sale of each region, by its name. -->
  <xsl:template match="/">
    <xsl:for-each select="sales/sale[generate-id() = generate-id(key('of-region', @region)[1])]">
      <xsl:sort select="@region"/>
      <xsl:variable name="region" select="key('of-region', @region)"/>
      <xsl:value-of select="concat(@region, ': sales ', count($region), ', pieces ', sum($region/@pieces), '&#10;')"/>
      <xsl:apply-templates select="$region[generate-id() = generate-id(key('of-article', concat(@region, '/', @article))[1])]">
        <xsl:sort select="sum(key('of-article', concat(@region, '/', @article))/@pieces)" data-type="number" order="descending"/>
        <xsl:sort select="@article"/>
      </xsl:apply-templates>
    </xsl:for-each>
    <xsl:text>all: pieces </xsl:text>
    <xsl:number value="sum(sales/sale/@pieces)" grouping-separator="," grouping-size="3"/>
    <xsl:text>&#10;</xsl:text>
  </xsl:template>

  <!-- A line for each article, at its first sale in the region. -->
  <xsl:template match="sale">
    <xsl:number value="position()" format="  1. "/>
    <xsl:value-of select="@article"/>
    <xsl:text>: </xsl:text>
    <xsl:for-each select="key('of-article', concat(@region, '/', @article))">
      <xsl:if test="position() != 1"> + </xsl:if>
      <xsl:value-of select="@pieces"/>
    </xsl:for-each>
    <xsl:text>&#10;</xsl:text>
  </xsl:template>
</xsl:stylesheet>
