?order by="name"
(s:stock
Axmlns:s urn:stock
Axmlns:x urn:notes
-\n  
C in the cellar 
-\n  
(s:item
Aprice 1.80
Ax:seen 2024-03-08
-Apples
(x:note
Akind old
)x:note
)s:item
-\n  
(s:item
Aprice 2.45
-Pears
)s:item
-\n
)s:stock
