<xsl:stylesheet version="1.0" xmlns:xsl="http://www.w3.org/1999/XSL/Transform" xmlns:w="http://www.mediawiki.org/xml/export-0.10/" exclude-result-prefixes="w">
  <xsl:output omit-xml-declaration="yes"/>
  <xsl:strip-space elements="*"/>
  <xsl:template match="/">
    <xsl:for-each select="/w:mediawiki/w:page[w:ns = 0 and not(w:redirect) and w:revision/w:contributor/w:id = 7]">
      <title><xsl:value-of select="w:title"/></title>
      <xsl:value-of select="w:revision/w:text"/>
    </xsl:for-each>
  </xsl:template>
</xsl:stylesheet>
