(xsl:stylesheet
Axmlns:xsl http://www.w3.org/1999/XSL/Transform
Aversion 1.0
-\n  
(xsl:output
Amethod text
)xsl:output
-\n  
(xsl:template
Amatch /
-\n    
(xsl:value-of
Aselect concat('Receipt ', order/@number, ', ', substring-before(order/@placed, 'T'))
)xsl:value-of
-\n    
(xsl:text
-\n
)xsl:text
-\n    
(xsl:for-each
Aselect order/item[@count > 0]
-\n      
(xsl:value-of
Aselect concat(position(), ' of ', last(), ': ', @count, ' ', normalize-space(name))
)xsl:value-of
-\n      
(xsl:text
-, 
)xsl:text
-\n      
(xsl:value-of
Aselect @count * price
)xsl:value-of
-\n      
(xsl:choose
-\n        
(xsl:when
Atest price > 1000
- (insured)
)xsl:when
-\n        
(xsl:when
Axmlns:g urn:gift
Atest g:wrap/@paper
- (wrapped in 
(xsl:value-of
Aselect g:wrap/@paper
)xsl:value-of
-)
)xsl:when
-\n        
(xsl:otherwise
)xsl:otherwise
-\n      
)xsl:choose
-\n      
(xsl:text
-\n
)xsl:text
-\n    
)xsl:for-each
-\n    
(xsl:if
Atest order/item[@count = 0]
-\n      
(xsl:message
-Not in stock: 
(xsl:for-each
Aselect order/item[@count = 0]
-\n        
(xsl:if
Atest position() > 1
-, 
)xsl:if
-\n        
(xsl:value-of
Aselect name
)xsl:value-of
-\n      
)xsl:for-each
)xsl:message
-\n    
)xsl:if
-\n    
(xsl:text
-Single prices together 
)xsl:text
-\n    
(xsl:value-of
Aselect sum(order/item/price)
)xsl:value-of
-\n    
(xsl:text
-, the highest is that of 
)xsl:text
-\n    
(xsl:value-of
Aselect normalize-space(order/item[not(price < ../item/price)]/name)
)xsl:value-of
-\n    
(xsl:text
-.\nShipping: 
)xsl:text
-\n    
(xsl:choose
-\n      
(xsl:when
Atest sum(order/item/price) >= 5000 or order/@club = 'yes'
-free
)xsl:when
-\n      
(xsl:when
Atest count(order/item) mod 2 = 0
-290
)xsl:when
-\n      
(xsl:otherwise
-490
)xsl:otherwise
-\n    
)xsl:choose
-\n    
(xsl:text
-\n
)xsl:text
-\n  
)xsl:template
-\n
)xsl:stylesheet
