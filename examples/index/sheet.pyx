(xsl:stylesheet
Axmlns:xsl http://www.w3.org/1999/XSL/Transform
Aversion 1.0
-\n  
(xsl:output
Amethod text
)xsl:output
-\n  
(xsl:variable
Aname upper
Aselect 'ABCDEFGHIJKLMNOPQRSTUVWXYZ'
)xsl:variable
-\n  
(xsl:variable
Aname lower
Aselect 'abcdefghijklmnopqrstuvwxyz'
)xsl:variable
-\n  
(xsl:key
Aname term
Amatch term
Ause .
)xsl:key
-\n  
(xsl:key
Aname page
Amatch page
Ause .//term
)xsl:key
-\n\n  
C Each term once: by its letters, whatever their case, and then capitals first. 
-\n  
(xsl:template
Amatch /
-\n    
(xsl:for-each
Aselect //term[generate-id() = generate-id(key('term', .)[1])]
-\n      
(xsl:sort
Aselect translate(., $upper, $lower)
)xsl:sort
-\n      
(xsl:sort
Aselect .
)xsl:sort
-\n      
(xsl:value-of
Aselect concat(., ' ')
)xsl:value-of
-\n      
(xsl:apply-templates
Aselect key('page', .)
-\n        
(xsl:sort
Aselect count(ancestor::preface)
Adata-type number
Aorder descending
)xsl:sort
-\n        
(xsl:sort
Aselect @no
Adata-type number
)xsl:sort
-\n      
)xsl:apply-templates
-\n      
(xsl:text
-\n
)xsl:text
-\n    
)xsl:for-each
-\n  
)xsl:template
-\n\n  
(xsl:template
Amatch page
-\n    
(xsl:number
Avalue @no
Aformat 1
)xsl:number
-\n    
(xsl:if
Atest position() != last()
-, 
)xsl:if
-\n  
)xsl:template
-\n\n  
(xsl:template
Amatch preface/page
-\n    
(xsl:number
Avalue @no
Aformat i
)xsl:number
-\n    
(xsl:if
Atest position() != last()
-, 
)xsl:if
-\n  
)xsl:template
-\n
)xsl:stylesheet
