<?xml version="1.0"?>
<xsl:stylesheet xmlns:xsl="http://www.w3.org/1999/XSL/Transform" version="1.0">
  <xsl:output method="text"/>
  <xsl:template match="/">
    <xsl:value-of select="concat('Receipt ', order/@number, ', ', substring-before(order/@placed, 'T'))"/>
    <xsl:text>
</xsl:text>
    <xsl:for-each select="order/item[@count &gt; 0]">
      <xsl:value-of select="concat(position(), ' of ', last(), ': ', @count, ' ', normalize-space(name))"/>
      <xsl:text>, </xsl:text>
      <xsl:value-of select="@count * price"/>
      <xsl:choose>
        <xsl:when test="price &gt; 1000"> (insured)</xsl:when>
        <xsl:when xmlns:g="urn:gift" test="g:wrap/@paper"> (wrapped in <xsl:value-of
          select="g:wrap/@paper"/>)</xsl:when>
        <xsl:otherwise/>
      </xsl:choose>
      <xsl:text>
</xsl:text>
    </xsl:for-each>
    <xsl:if test="order/item[@count = 0]">
      <xsl:message>Not in stock: <xsl:for-each select="order/item[@count = 0]">
        <xsl:if test="position() &gt; 1">, </xsl:if>
        <xsl:value-of select="name"/>
      </xsl:for-each></xsl:message>
    </xsl:if>
    <xsl:text>Single prices together </xsl:text>
    <xsl:value-of select="sum(order/item/price)"/>
    <xsl:text>, the highest is that of </xsl:text>
    <xsl:value-of select="normalize-space(order/item[not(price &lt; ../item/price)]/name)"/>
    <xsl:text>.
Shipping: </xsl:text>
    <xsl:choose>
      <xsl:when test="sum(order/item/price) &gt;= 5000 or order/@club = 'yes'">free</xsl:when>
      <xsl:when test="count(order/item) mod 2 = 0">290</xsl:when>
      <xsl:otherwise>490</xsl:otherwise>
    </xsl:choose>
    <xsl:text>
</xsl:text>
  </xsl:template>
</xsl:stylesheet>
