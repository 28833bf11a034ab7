<xsl:stylesheet version="1.0" xmlns:xsl="http://www.w3.org/1999/XSL/Transform" xmlns:dc="http://purl.org/dc/elements/1.1/" exclude-result-prefixes="dc">
  <xsl:output omit-xml-declaration="yes"/>
  <xsl:strip-space elements="*"/>
  <xsl:template match="/">
    <xsl:for-each select="/rss/channel/item[category/text() = 'release']">
      <release>
        <title><xsl:value-of select="title"/></title>
        <by><xsl:value-of select="dc:creator"/></by>
      </release>
    </xsl:for-each>
  </xsl:template>
</xsl:stylesheet>
