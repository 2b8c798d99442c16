<xsl:stylesheet xmlns:xsl="http://www.w3.org/1999/XSL/Transform" version="1.0">
  <xsl:template match="item">
    <xsl:text>  </xsl:text>
    <xsl:value-of select="@count"/>
    <xsl:text> x </xsl:text>
    <xsl:value-of select="."/>
    <xsl:text>, </xsl:text>
    <xsl:call-template name="money">
      <xsl:with-param name="cents" select="@cents"/>
    </xsl:call-template>
    <xsl:text> each&#10;</xsl:text>
  </xsl:template>

  <!-- A line of text with a line of signs below it. -->
  <xsl:template name="title">
    <xsl:param name="text"/>
    <xsl:text>&#10;</xsl:text>
    <xsl:value-of select="$text"/>
    <xsl:text>&#10;</xsl:text>
    <xsl:call-template name="rule">
      <xsl:with-param name="length" select="string-length($text)"/>
    </xsl:call-template>
    <xsl:text>&#10;</xsl:text>
  </xsl:template>

  <xsl:template name="rule">
    <xsl:param name="length"/>
    <xsl:if test="$length &gt; 0">
      <xsl:text>=</xsl:text>
      <xsl:call-template name="rule">
        <xsl:with-param name="length" select="$length - 1"/>
      </xsl:call-template>
    </xsl:if>
  </xsl:template>

  <!-- Cents as an amount with two places. -->
  <xsl:template name="money">
    <xsl:param name="cents"/>
    <xsl:variable name="rest" select="$cents mod 100"/>
    <xsl:value-of select="($cents - $rest) div 100"/>
    <xsl:text>.</xsl:text>
    <xsl:if test="$rest &lt; 10">0</xsl:if>
    <xsl:value-of select="$rest"/>
  </xsl:template>
</xsl:stylesheet>
