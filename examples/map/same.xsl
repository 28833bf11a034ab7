<xsl:stylesheet version="1.0" xmlns:xsl="http://www.w3.org/1999/XSL/Transform">
  <xsl:output omit-xml-declaration="yes"/>
  <xsl:strip-space elements="*"/>
  <xsl:template match="/">
    <xsl:for-each select="/osm/node[tag[@k = 'amenity' and @v = 'cafe']]">
      <cafe><id><xsl:value-of select="@id"/></id><v><xsl:value-of select="tag[@k = 'name']/@v"/></v></cafe>
    </xsl:for-each>
  </xsl:template>
</xsl:stylesheet>
