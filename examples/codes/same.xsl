<xsl:stylesheet version="1.0" xmlns:xsl="http://www.w3.org/1999/XSL/Transform">
  <xsl:output omit-xml-declaration="yes"/>
  <xsl:strip-space elements="*"/>
  <xsl:template match="/">
    <xsl:for-each select="/codes/entry[@number &lt; 100]">
      <code><alpha><xsl:value-of select="@alpha"/></alpha><name><xsl:value-of select="@name"/></name></code>
    </xsl:for-each>
  </xsl:template>
</xsl:stylesheet>
