(xsl:stylesheet
Aversion 1.0
Axmlns:xsl http://www.w3.org/1999/XSL/Transform
-\n  
(xsl:import
Ahref inline.pyx
)xsl:import
-\n  
(xsl:output
Amethod html
)xsl:output
-\n  
(xsl:strip-space
Aelements article section itemizedlist info
)xsl:strip-space
-\n\n  
(xsl:template
Amatch /article
-\n    
(html
-\n      
(head
(title
(xsl:value-of
Aselect info/title
)xsl:value-of
)title
)head
-\n      
(body
-\n        
(xsl:processing-instruction
Aname toc
-depth="2"
)xsl:processing-instruction
-\n        
(ul
Aclass toc
-\n          
(xsl:apply-templates
Aselect section
Amode toc
)xsl:apply-templates
-\n        
)ul
-\n        
(xsl:apply-templates
Aselect section
)xsl:apply-templates
-\n      
)body
-\n    
)html
-\n  
)xsl:template
-\n\n  
(xsl:template
Amatch section
Amode toc
-\n    
(li
(a
Ahref #{generate-id()}
(xsl:value-of
Aselect title
)xsl:value-of
)a
)li
-\n  
)xsl:template
-\n\n  
(xsl:template
Amatch section
-\n    
(div
Aid {generate-id()}
(xsl:apply-templates
)xsl:apply-templates
)div
-\n  
)xsl:template
-\n\n  
(xsl:template
Amatch section/title
-\n    
(xsl:element
Aname h{count(ancestor::section) + 1}
(xsl:apply-templates
)xsl:apply-templates
)xsl:element
-\n  
)xsl:template
-\n\n  
(xsl:template
Amatch para
(p
(xsl:apply-templates
)xsl:apply-templates
)p
)xsl:template
-\n  
(xsl:template
Amatch itemizedlist
(ul
(xsl:apply-templates
)xsl:apply-templates
)ul
)xsl:template
-\n  
(xsl:template
Amatch listitem
(li
(xsl:apply-templates
Aselect para/node()
)xsl:apply-templates
)li
)xsl:template
-\n  
(xsl:template
Amatch link[@linkend]
-\n    
(xsl:apply-imports
)xsl:apply-imports
-\n    
(xsl:text
- (
)xsl:text
(xsl:value-of
Aselect //section[@id = current()/@linkend]/title
)xsl:value-of
(xsl:text
-)
)xsl:text
-\n  
)xsl:template
-\n
)xsl:stylesheet
