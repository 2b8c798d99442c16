(xsl:stylesheet
Axmlns:xsl http://www.w3.org/1999/XSL/Transform
Aversion 1.0
-\n  
(xsl:output
Amethod text
)xsl:output
-\n  
(xsl:key
Aname of-region
Amatch sale
Ause @region
)xsl:key
-\n  
(xsl:key
Aname of-article
Amatch sale
Ause concat(@region, '/', @article)
)xsl:key
-\n\n  
C The first sale of each region, by its name. 
-\n  
(xsl:template
Amatch /
-\n    
(xsl:for-each
Aselect sales/sale[generate-id() = generate-id(key('of-region', @region)[1])]
-\n      
(xsl:sort
Aselect @region
)xsl:sort
-\n      
(xsl:variable
Aname region
Aselect key('of-region', @region)
)xsl:variable
-\n      
(xsl:value-of
Aselect concat(@region, ': sales ', count($region), ', pieces ', sum($region/@pieces), '\n')
)xsl:value-of
-\n      
(xsl:apply-templates
Aselect $region[generate-id() = generate-id(key('of-article', concat(@region, '/', @article))[1])]
-\n        
(xsl:sort
Aselect sum(key('of-article', concat(@region, '/', @article))/@pieces)
Adata-type number
Aorder descending
)xsl:sort
-\n        
(xsl:sort
Aselect @article
)xsl:sort
-\n      
)xsl:apply-templates
-\n    
)xsl:for-each
-\n    
(xsl:text
-all: pieces 
)xsl:text
-\n    
(xsl:number
Avalue sum(sales/sale/@pieces)
Agrouping-separator ,
Agrouping-size 3
)xsl:number
-\n    
(xsl:text
-\n
)xsl:text
-\n  
)xsl:template
-\n\n  
C A line for each article, at its first sale in the region. 
-\n  
(xsl:template
Amatch sale
-\n    
(xsl:number
Avalue position()
Aformat   1. 
)xsl:number
-\n    
(xsl:value-of
Aselect @article
)xsl:value-of
-\n    
(xsl:text
-: 
)xsl:text
-\n    
(xsl:for-each
Aselect key('of-article', concat(@region, '/', @article))
-\n      
(xsl:if
Atest position() != 1
- + 
)xsl:if
-\n      
(xsl:value-of
Aselect @pieces
)xsl:value-of
-\n    
)xsl:for-each
-\n    
(xsl:text
-\n
)xsl:text
-\n  
)xsl:template
-\n
)xsl:stylesheet
