<xsl:stylesheet version="1.0" xmlns:xsl="http://www.w3.org/1999/XSL/Transform" xmlns:m="http://maven.apache.org/POM/4.0.0" exclude-result-prefixes="m">
  <xsl:output omit-xml-declaration="yes"/>
  <xsl:strip-space elements="*"/>
  <xsl:template match="/">
    <xsl:for-each select="/m:project/m:dependencies/m:dependency[not(m:scope = 'test')]">
      <needs>
        <groupId><xsl:value-of select="m:groupId"/></groupId>
        <artifactId><xsl:value-of select="m:artifactId"/></artifactId>
      </needs>
    </xsl:for-each>
  </xsl:template>
</xsl:stylesheet>
