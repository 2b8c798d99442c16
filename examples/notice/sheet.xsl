<t:stylesheet xmlns:t="http://www.w3.org/1999/XSL/Transform" version="1.0">
  <t:output method="text"/>
  <!-- XSLT's elements are known by their namespace, whatever the prefix. -->
  <t:template match="/">
    <t:value-of select="notice/title"/>
    <t:for-each select="notice/line">
      <p:line xmlns:p="urn:example:print">
- <t:value-of select="."/></p:line>
    </t:for-each>
  </t:template>
</t:stylesheet>
