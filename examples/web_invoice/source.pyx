(b:invoice
Axmlns:b urn:billing
Alanguage de
Acurrency EUR
-\n  
(b:number
-2024-0117
)b:number
-\n  
(b:customer
-Café Lumière, Leipzig
)b:customer
-\n  
(b:line
Acents 3600
-Apples, 20 kg
)b:line
-\n  
(b:line
Acents 2450
-Pears, 10 kg
)b:line
-\n  
(b:line
Acents 3300
-Honey, 6 
(em
Axmlns http://www.w3.org/1999/xhtml
-large
)em
- jars
)b:line
-\n
)b:invoice
