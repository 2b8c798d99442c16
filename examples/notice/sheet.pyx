(t:stylesheet
Axmlns:t http://www.w3.org/1999/XSL/Transform
Aversion 1.0
-\n  
(t:output
Amethod text
)t:output
-\n  
C XSLT's elements are known by their namespace, whatever the prefix. 
-\n  
(t:template
Amatch /
-\n    
(t:value-of
Aselect notice/title
)t:value-of
-\n    
(t:for-each
Aselect notice/line
-\n      
(p:line
Axmlns:p urn:example:print
-\n- 
(t:value-of
Aselect .
)t:value-of
)p:line
-\n    
)t:for-each
-\n  
)t:template
-\n
)t:stylesheet
