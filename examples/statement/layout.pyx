(xsl:stylesheet
Axmlns:xsl http://www.w3.org/1999/XSL/Transform
Aversion 1.0
-\n  
(xsl:template
Amatch item
-\n    
(xsl:text
-  
)xsl:text
-\n    
(xsl:value-of
Aselect @count
)xsl:value-of
-\n    
(xsl:text
- x 
)xsl:text
-\n    
(xsl:value-of
Aselect .
)xsl:value-of
-\n    
(xsl:text
-, 
)xsl:text
-\n    
(xsl:call-template
Aname money
-\n      
(xsl:with-param
Aname cents
Aselect @cents
)xsl:with-param
-\n    
)xsl:call-template
-\n    
(xsl:text
- each\n
)xsl:text
-\n  
)xsl:template
-\n\n  
C A line of text with a line of signs below it. 
-\n  
(xsl:template
Aname title
-\n    
(xsl:param
Aname text
)xsl:param
-\n    
(xsl:text
-\n
)xsl:text
-\n    
(xsl:value-of
Aselect $text
)xsl:value-of
-\n    
(xsl:text
-\n
)xsl:text
-\n    
(xsl:call-template
Aname rule
-\n      
(xsl:with-param
Aname length
Aselect string-length($text)
)xsl:with-param
-\n    
)xsl:call-template
-\n    
(xsl:text
-\n
)xsl:text
-\n  
)xsl:template
-\n\n  
(xsl:template
Aname rule
-\n    
(xsl:param
Aname length
)xsl:param
-\n    
(xsl:if
Atest $length > 0
-\n      
(xsl:text
-=
)xsl:text
-\n      
(xsl:call-template
Aname rule
-\n        
(xsl:with-param
Aname length
Aselect $length - 1
)xsl:with-param
-\n      
)xsl:call-template
-\n    
)xsl:if
-\n  
)xsl:template
-\n\n  
C Cents as an amount with two places. 
-\n  
(xsl:template
Aname money
-\n    
(xsl:param
Aname cents
)xsl:param
-\n    
(xsl:variable
Aname rest
Aselect $cents mod 100
)xsl:variable
-\n    
(xsl:value-of
Aselect ($cents - $rest) div 100
)xsl:value-of
-\n    
(xsl:text
-.
)xsl:text
-\n    
(xsl:if
Atest $rest < 10
-0
)xsl:if
-\n    
(xsl:value-of
Aselect $rest
)xsl:value-of
-\n  
)xsl:template
-\n
)xsl:stylesheet
