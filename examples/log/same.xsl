<xsl:stylesheet version="1.0" xmlns:xsl="http://www.w3.org/1999/XSL/Transform">
  <xsl:output omit-xml-declaration="yes"/>
  <xsl:strip-space elements="*"/>
  <xsl:template match="/">
    <xsl:for-each select="/log/record[service = 'db' and ms &gt; 1000 and translate(time, '-:TZ', '') &gt;= 20260301080001]">
      <slow><time><xsl:value-of select="time"/></time><text><xsl:value-of select="text"/></text></slow>
    </xsl:for-each>
  </xsl:template>
</xsl:stylesheet>
