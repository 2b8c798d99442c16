<xsl:stylesheet xmlns:xsl="http://www.w3.org/1999/XSL/Transform" version="1.0"
><xsl:output method="text"/><xsl:include href="table.pyx"/></xsl:stylesheet
>
