<xsl:stylesheet xmlns:xsl="http://www.w3.org/1999/XSL/Transform" version="1.0">
  <xsl:output method="xml"/>
  <xsl:strip-space elements="*"/>

  <xsl:template match="manual">
    <html>
      <body>
        <ul><xsl:apply-templates select="chapter|appendix" mode="contents"/></ul>
        <xsl:apply-templates/>
      </body>
    </html>
  </xsl:template>

  <!-- The table of contents. -->
  <xsl:template match="chapter|appendix|section" mode="contents">
    <li>
      <xsl:apply-templates select="." mode="number"/>
      <xsl:value-of select="title"/>
      <xsl:if test="section">
        <ul><xsl:apply-templates select="section" mode="contents"/></ul>
      </xsl:if>
    </li>
  </xsl:template>

  <!-- Chapters are counted by figures, appendices by letters; sections within them. -->
  <xsl:template match="*" mode="number">
    <xsl:number level="multiple" count="chapter|section" format="1.1 "/>
  </xsl:template>

  <xsl:template match="appendix|appendix//section" mode="number">
    <xsl:number level="multiple" count="appendix|section" format="A.1 "/>
  </xsl:template>

  <xsl:template match="title">
    <xsl:element name="h{count(ancestor::*) - 1}">
      <xsl:apply-templates select=".." mode="number"/>
      <xsl:apply-templates/>
    </xsl:element>
  </xsl:template>

  <xsl:template match="para"><p><xsl:apply-templates/></p></xsl:template>

  <!-- Figures are counted through the manual, notes anew in each chapter. -->
  <xsl:template match="figure">
    <p>Figure <xsl:number level="any"/>: <xsl:apply-templates/></p>
  </xsl:template>

  <xsl:template match="note">
    <sup><xsl:number level="any" from="chapter|appendix" format="i"/></sup>
  </xsl:template>
</xsl:stylesheet>
