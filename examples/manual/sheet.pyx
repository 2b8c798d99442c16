(xsl:stylesheet
Axmlns:xsl http://www.w3.org/1999/XSL/Transform
Aversion 1.0
-\n  
(xsl:output
Amethod xml
)xsl:output
-\n  
(xsl:strip-space
Aelements *
)xsl:strip-space
-\n\n  
(xsl:template
Amatch manual
-\n    
(html
-\n      
(body
-\n        
(ul
(xsl:apply-templates
Aselect chapter|appendix
Amode contents
)xsl:apply-templates
)ul
-\n        
(xsl:apply-templates
)xsl:apply-templates
-\n      
)body
-\n    
)html
-\n  
)xsl:template
-\n\n  
C The table of contents. 
-\n  
(xsl:template
Amatch chapter|appendix|section
Amode contents
-\n    
(li
-\n      
(xsl:apply-templates
Aselect .
Amode number
)xsl:apply-templates
-\n      
(xsl:value-of
Aselect title
)xsl:value-of
-\n      
(xsl:if
Atest section
-\n        
(ul
(xsl:apply-templates
Aselect section
Amode contents
)xsl:apply-templates
)ul
-\n      
)xsl:if
-\n    
)li
-\n  
)xsl:template
-\n\n  
C Chapters are counted by figures, appendices by letters; sections within them. 
-\n  
(xsl:template
Amatch *
Amode number
-\n    
(xsl:number
Alevel multiple
Acount chapter|section
Aformat 1.1 
)xsl:number
-\n  
)xsl:template
-\n\n  
(xsl:template
Amatch appendix|appendix//section
Amode number
-\n    
(xsl:number
Alevel multiple
Acount appendix|section
Aformat A.1 
)xsl:number
-\n  
)xsl:template
-\n\n  
(xsl:template
Amatch title
-\n    
(xsl:element
Aname h{count(ancestor::*) - 1}
-\n      
(xsl:apply-templates
Aselect ..
Amode number
)xsl:apply-templates
-\n      
(xsl:apply-templates
)xsl:apply-templates
-\n    
)xsl:element
-\n  
)xsl:template
-\n\n  
(xsl:template
Amatch para
(p
(xsl:apply-templates
)xsl:apply-templates
)p
)xsl:template
-\n\n  
C Figures are counted through the manual, notes anew in each chapter. 
-\n  
(xsl:template
Amatch figure
-\n    
(p
-Figure 
(xsl:number
Alevel any
)xsl:number
-: 
(xsl:apply-templates
)xsl:apply-templates
)p
-\n  
)xsl:template
-\n\n  
(xsl:template
Amatch note
-\n    
(sup
(xsl:number
Alevel any
Afrom chapter|appendix
Aformat i
)xsl:number
)sup
-\n  
)xsl:template
-\n
)xsl:stylesheet
