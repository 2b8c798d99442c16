(xsl:stylesheet
Axmlns:xsl http://www.w3.org/1999/XSL/Transform
Aversion 1.0
-\n  
(xsl:import
Ahref layout.pyx
)xsl:import
-\n  
(xsl:output
Amethod text
)xsl:output
-\n  
(xsl:strip-space
Aelements *
)xsl:strip-space
-\n\n  
C The customer whose statement is wanted; all of them where the words give none. 
-\n  
(xsl:param
Aname only
)xsl:param
-\n  
(xsl:variable
Aname wanted
Aselect /ledger/customer[$only = '' or @id = $only]
)xsl:variable
-\n\n  
(xsl:template
Amatch /
-\n    
(xsl:text
-Statements of 
)xsl:text
-\n    
(xsl:value-of
Aselect ledger/@month
)xsl:value-of
-\n    
(xsl:text
-\n
)xsl:text
-\n    
(xsl:apply-templates
Aselect $wanted
)xsl:apply-templates
-\n  
)xsl:template
-\n\n  
(xsl:template
Amatch customer
-\n    
(xsl:call-template
Aname title
-\n      
(xsl:with-param
Aname text
Aselect @name
)xsl:with-param
-\n    
)xsl:call-template
-\n    
(xsl:apply-templates
)xsl:apply-templates
-\n    
(xsl:text
-Total 
)xsl:text
-\n    
(xsl:call-template
Aname money
-\n      
(xsl:with-param
Aname cents
-\n        
(xsl:call-template
Aname total
-\n          
(xsl:with-param
Aname items
Aselect order/item[not(@free)]
)xsl:with-param
-\n        
)xsl:call-template
-\n      
)xsl:with-param
-\n    
)xsl:call-template
-\n    
(xsl:text
-\n
)xsl:text
-\n  
)xsl:template
-\n\n  
(xsl:template
Amatch order
-\n    
(xsl:if
Atest not(item)
-\n      
(xsl:message
-order 
(xsl:value-of
Aselect @no
)xsl:value-of
- has no item
)xsl:message
-\n    
)xsl:if
-\n    
(xsl:apply-templates
)xsl:apply-templates
-\n  
)xsl:template
-\n\n  
C Over the rule of the layout, which writes the line. 
-\n  
(xsl:template
Amatch item[@free]
-\n    
(xsl:apply-imports
)xsl:apply-imports
-\n    
(xsl:text
-  (a present)\n
)xsl:text
-\n  
)xsl:template
-\n\n  
C What the items cost: the first one, and then the rest. 
-\n  
(xsl:template
Aname total
-\n    
(xsl:param
Aname items
)xsl:param
-\n    
(xsl:param
Aname sum
Aselect 0
)xsl:param
-\n    
(xsl:choose
-\n      
(xsl:when
Atest $items
-\n        
(xsl:call-template
Aname total
-\n          
(xsl:with-param
Aname items
Aselect $items[position() > 1]
)xsl:with-param
-\n          
(xsl:with-param
Aname sum
Aselect $sum + $items[1]/@count * $items[1]/@cents
)xsl:with-param
-\n        
)xsl:call-template
-\n      
)xsl:when
-\n      
(xsl:otherwise
-\n        
(xsl:value-of
Aselect $sum
)xsl:value-of
-\n      
)xsl:otherwise
-\n    
)xsl:choose
-\n  
)xsl:template
-\n
)xsl:stylesheet
