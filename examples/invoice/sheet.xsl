<xsl:stylesheet xmlns:xsl="http://www.w3.org/1999/XSL/Transform" version="1.0"
><xsl:output method="text"/><xsl:template match="/"
>Invoice <b><xsl:value-of select="invoice/number"/></b> of <xsl:value-of select="invoice/date"
/>, <xsl:value-of select="invoice/seller/name"/> to <xsl:value-of select="invoice/customer/name"
/>, <xsl:value-of select="invoice/customer/city"
/>. First of its lines: <xsl:value-of select="invoice/line"
/>. Net <xsl:value-of select="invoice/totals/net"
/>, tax <xsl:value-of select="invoice/totals/tax"
/>, discount <xsl:value-of select="invoice/totals/discount"
/>, due <b><xsl:value-of select="invoice/totals/due"/></b>.</xsl:template
></xsl:stylesheet>
