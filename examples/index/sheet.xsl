<xsl:stylesheet xmlns:xsl="http://www.w3.org/1999/XSL/Transform" version="1.0">
  <xsl:output method="text"/>
  <xsl:variable name="upper" select="'ABCDEFGHIJKLMNOPQRSTUVWXYZ'"/>
  <xsl:variable name="lower" select="'abcdefghijklmnopqrstuvwxyz'"/>
  <xsl:key name="term" match="term" use="."/>
  <xsl:key name="page" match="page" use=".//term"/>

  <!-- Each term once: by its letters, whatever their case, and then capitals first. -->
  <xsl:template match="/">
    <xsl:for-each select="//term[generate-id() = generate-id(key('term', .)[1])]">
      <xsl:sort select="translate(., $upper, $lower)"/>
      <xsl:sort select="."/>
      <xsl:value-of select="concat(., ' ')"/>
      <xsl:apply-templates select="key('page', .)">
        <xsl:sort select="count(ancestor::preface)" data-type="number" order="descending"/>
        <xsl:sort select="@no" data-type="number"/>
      </xsl:apply-templates>
      <xsl:text>&#10;</xsl:text>
    </xsl:for-each>
  </xsl:template>

  <xsl:template match="page">
    <xsl:number value="@no" format="1"/>
    <xsl:if test="position() != last()">, </xsl:if>
  </xsl:template>

  <xsl:template match="preface/page">
    <xsl:number value="@no" format="i"/>
    <xsl:if test="position() != last()">, </xsl:if>
  </xsl:template>
</xsl:stylesheet>
