(xsl:stylesheet
Aversion 1.0
Axmlns:xsl http://www.w3.org/1999/XSL/Transform
Axmlns http://www.w3.org/1999/xhtml
Axmlns:b urn:billing
Aexclude-result-prefixes b
-\n  
(xsl:output
Amethod xml
)xsl:output
-\n\n  
(xsl:attribute-set
Aname cell
-\n    
(xsl:attribute
Aname class
-cell
)xsl:attribute
-\n  
)xsl:attribute-set
-\n  
(xsl:attribute-set
Aname amount
Ause-attribute-sets cell
-\n    
(xsl:attribute
Aname class
-amount
)xsl:attribute
-\n    
(xsl:attribute
Aname title
(xsl:value-of
Aselect /b:invoice/@currency
)xsl:value-of
)xsl:attribute
-\n  
)xsl:attribute-set
-\n\n  
(xsl:template
Amatch /b:invoice
-\n    
(html
Alang {@language}
-\n      
(head
-\n        
(title
-Invoice 
(xsl:value-of
Aselect b:number
)xsl:value-of
)title
-\n      
)head
-\n      
(body
-\n        
(h1
-Invoice 
(xsl:value-of
Aselect b:number
)xsl:value-of
)h1
-\n        
(p
Aclass to
(xsl:value-of
Aselect b:customer
)xsl:value-of
)p
-\n        
(table
-\n          
(xsl:apply-templates
Aselect b:line
)xsl:apply-templates
-\n        
)table
-\n        
(p
Aid due-{b:number}
-Due: 
(xsl:value-of
Aselect sum(b:line/@cents)
)xsl:value-of
- cents
)p
-\n        
(xsl:comment
- made from invoice 
(xsl:value-of
Aselect b:number
)xsl:value-of
- 
)xsl:comment
-\n      
)body
-\n    
)html
-\n  
)xsl:template
-\n\n  
(xsl:template
Amatch b:line
-\n    
(tr
-\n      
(xsl:if
Atest position() mod 2 = 0
-\n        
(xsl:attribute
Aname class
-even
)xsl:attribute
-\n      
)xsl:if
-\n      
(td
Axsl:use-attribute-sets cell
(xsl:value-of
Aselect position()
)xsl:value-of
)td
-\n      
(td
Axsl:use-attribute-sets cell
(xsl:copy-of
Aselect node()
)xsl:copy-of
)td
-\n      
(td
Axsl:use-attribute-sets amount
(xsl:value-of
Aselect @cents
)xsl:value-of
)td
-\n    
)tr
-\n  
)xsl:template
-\n
)xsl:stylesheet
