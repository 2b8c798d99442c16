(xsl:stylesheet
Aversion 1.0
Axmlns:xsl http://www.w3.org/1999/XSL/Transform
Axmlns http://www.sitemaps.org/schemas/sitemap/0.9
Axmlns:image http://www.google.com/schemas/sitemap-image/1.1
-\n  
(xsl:output
Amethod xml
Aencoding UTF-8
)xsl:output
-\n  
(xsl:variable
Aname base
Aselect 'https://example.org/'
)xsl:variable
-\n\n  
(xsl:template
Amatch /
-\n    
(urlset
-\n      
(xsl:for-each
Aselect pages/page[not(@hidden)]
-\n        
(url
-\n          
(loc
(xsl:value-of
Aselect concat($base, @path)
)xsl:value-of
)loc
-\n          
(xsl:apply-templates
Aselect @changed|picture
)xsl:apply-templates
-\n        
)url
-\n      
)xsl:for-each
-\n    
)urlset
-\n  
)xsl:template
-\n\n  
(xsl:template
Amatch @changed
-\n    
(lastmod
(xsl:value-of
Aselect .
)xsl:value-of
)lastmod
-\n  
)xsl:template
-\n\n  
(xsl:template
Amatch picture
-\n    
(xsl:element
Aname image:image
-\n      
(xsl:element
Aname loc
Anamespace http://www.google.com/schemas/sitemap-image/1.1
-\n        
(xsl:value-of
Aselect concat($base, @file)
)xsl:value-of
-\n      
)xsl:element
-\n    
)xsl:element
-\n  
)xsl:template
-\n
)xsl:stylesheet
