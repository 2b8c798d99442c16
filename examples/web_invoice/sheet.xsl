<?xml version="1.0"?>
<xsl:stylesheet version="1.0" xmlns:xsl="http://www.w3.org/1999/XSL/Transform"
                xmlns="http://www.w3.org/1999/xhtml" xmlns:b="urn:billing" exclude-result-prefixes="b">
  <xsl:output method="xml"/>

  <xsl:attribute-set name="cell">
    <xsl:attribute name="class">cell</xsl:attribute>
  </xsl:attribute-set>
  <xsl:attribute-set name="amount" use-attribute-sets="cell">
    <xsl:attribute name="class">amount</xsl:attribute>
    <xsl:attribute name="title"><xsl:value-of select="/b:invoice/@currency"/></xsl:attribute>
  </xsl:attribute-set>

  <xsl:template match="/b:invoice">
    <html lang="{@language}">
      <head>
        <title>Invoice <xsl:value-of select="b:number"/></title>
      </head>
      <body>
        <h1>Invoice <xsl:value-of select="b:number"/></h1>
        <p class="to"><xsl:value-of select="b:customer"/></p>
        <table>
          <xsl:apply-templates select="b:line"/>
        </table>
        <p id="due-{b:number}">Due: <xsl:value-of select="sum(b:line/@cents)"/> cents</p>
        <xsl:comment> made from invoice <xsl:value-of select="b:number"/> </xsl:comment>
      </body>
    </html>
  </xsl:template>

  <xsl:template match="b:line">
    <tr>
      <xsl:if test="position() mod 2 = 0">
        <xsl:attribute name="class">even</xsl:attribute>
      </xsl:if>
      <td xsl:use-attribute-sets="cell"><xsl:value-of select="position()"/></td>
      <td xsl:use-attribute-sets="cell"><xsl:copy-of select="node()"/></td>
      <td xsl:use-attribute-sets="amount"><xsl:value-of select="@cents"/></td>
    </tr>
  </xsl:template>
</xsl:stylesheet>
