<xsl:stylesheet version="1.0" xmlns:xsl="http://www.w3.org/1999/XSL/Transform">
  <xsl:output omit-xml-declaration="yes"/>
  <xsl:strip-space elements="*"/>
  <xsl:template match="/">
    <xsl:for-each select="/shop/customers/customer[city = 'Bern']">
      <xsl:variable name="customer" select="."/>
      <xsl:for-each select="/shop/orders/order[@customer = $customer/@id and total &gt; 900]">
        <order>
          <name><xsl:value-of select="$customer/name"/></name>
          <id><xsl:value-of select="@id"/></id>
          <sum><xsl:value-of select="total"/></sum>
        </order>
      </xsl:for-each>
    </xsl:for-each>
  </xsl:template>
</xsl:stylesheet>
