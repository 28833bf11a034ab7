<xsl:stylesheet version="1.0" xmlns:xsl="http://www.w3.org/1999/XSL/Transform">
  <xsl:output omit-xml-declaration="yes"/>
  <xsl:strip-space elements="*"/>
  <xsl:template match="/">
    <xsl:for-each select="//section[figure]">
      <section><title><xsl:value-of select="title"/></title><file><xsl:value-of select="figure/@file"/></file></section>
    </xsl:for-each>
  </xsl:template>
</xsl:stylesheet>
