<xsl:stylesheet xmlns:xsl="http://www.w3.org/1999/XSL/Transform" version="1.0">
  <xsl:import href="layout.xsl"/>
  <xsl:output method="text"/>
  <xsl:strip-space elements="*"/>

  <!-- The customer whose statement is wanted; all of them where the words give none. -->
  <xsl:param name="only"/>
  <xsl:variable name="wanted" select="/ledger/customer[$only = '' or @id = $only]"/>

  <xsl:template match="/">
    <xsl:text>Statements of </xsl:text>
    <xsl:value-of select="ledger/@month"/>
    <xsl:text>&#10;</xsl:text>
    <xsl:apply-templates select="$wanted"/>
  </xsl:template>

  <xsl:template match="customer">
    <xsl:call-template name="title">
      <xsl:with-param name="text" select="@name"/>
    </xsl:call-template>
    <xsl:apply-templates/>
    <xsl:text>Total </xsl:text>
    <xsl:call-template name="money">
      <xsl:with-param name="cents">
        <xsl:call-template name="total">
          <xsl:with-param name="items" select="order/item[not(@free)]"/>
        </xsl:call-template>
      </xsl:with-param>
    </xsl:call-template>
    <xsl:text>&#10;</xsl:text>
  </xsl:template>

  <xsl:template match="order">
    <xsl:if test="not(item)">
      <xsl:message>order <xsl:value-of select="@no"/> has no item</xsl:message>
    </xsl:if>
    <xsl:apply-templates/>
  </xsl:template>

  <!-- Over the rule of the layout, which writes the line. -->
  <xsl:template match="item[@free]">
    <xsl:apply-imports/>
    <xsl:text>  (a present)&#10;</xsl:text>
  </xsl:template>

  <!-- What the items cost: the first one, and then the rest. -->
  <xsl:template name="total">
    <xsl:param name="items"/>
    <xsl:param name="sum" select="0"/>
    <xsl:choose>
      <xsl:when test="$items">
        <xsl:call-template name="total">
          <xsl:with-param name="items" select="$items[position() &gt; 1]"/>
          <xsl:with-param name="sum" select="$sum + $items[1]/@count * $items[1]/@cents"/>
        </xsl:call-template>
      </xsl:when>
      <xsl:otherwise>
        <xsl:value-of select="$sum"/>
      </xsl:otherwise>
    </xsl:choose>
  </xsl:template>
</xsl:stylesheet>
