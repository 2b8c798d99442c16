<?xml version="1.0"?>
<xsl:stylesheet version="1.0" xmlns:xsl="http://www.w3.org/1999/XSL/Transform"
                xmlns="http://www.sitemaps.org/schemas/sitemap/0.9"
                xmlns:image="http://www.google.com/schemas/sitemap-image/1.1">
  <xsl:output method="xml" encoding="UTF-8"/>
  <xsl:variable name="base" select="'https://example.org/'"/>

  <xsl:template match="/">
    <urlset>
      <xsl:for-each select="pages/page[not(@hidden)]">
        <url>
          <loc><xsl:value-of select="concat($base, @path)"/></loc>
          <xsl:apply-templates select="@changed|picture"/>
        </url>
      </xsl:for-each>
    </urlset>
  </xsl:template>

  <xsl:template match="@changed">
    <lastmod><xsl:value-of select="."/></lastmod>
  </xsl:template>

  <xsl:template match="picture">
    <xsl:element name="image:image">
      <xsl:element name="loc" namespace="http://www.google.com/schemas/sitemap-image/1.1">
        <xsl:value-of select="concat($base, @file)"/>
      </xsl:element>
    </xsl:element>
  </xsl:template>
</xsl:stylesheet>
