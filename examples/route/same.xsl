<xsl:stylesheet version="1.0" xmlns:xsl="http://www.w3.org/1999/XSL/Transform" xmlns:k="http://www.opengis.net/kml/2.2" exclude-result-prefixes="k">
  <xsl:output omit-xml-declaration="yes"/>
  <xsl:strip-space elements="*"/>
  <xsl:template match="/">
    <xsl:for-each select="//k:Placemark/k:ExtendedData/k:Data[@name = 'ele' and k:value &gt; 2000]">
      <high>
        <name><xsl:value-of select="../../k:name"/></name>
        <value><xsl:value-of select="k:value"/></value>
      </high>
    </xsl:for-each>
  </xsl:template>
</xsl:stylesheet>
