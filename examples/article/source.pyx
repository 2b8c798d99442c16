(article
-\n  
(info
(title
-Grafting
)title
)info
-\n  
(section
Aid why
-\n    
(title
-Why 
(emphasis
-graft
)emphasis
-?
)title
-\n    
(para
-A seed does not give the 
(emphasis
Arole strong
-same
)emphasis
- apple; see 
(link
Alinkend how
Aurl #how
-the way
)link
-.
)para
-\n  
)section
-\n  
(section
Aid how
-\n    
(title
-How it is done
)title
-\n    
(para
-With a 
(literal
-knife
)literal
- and a 
(tool
-saw
)tool
-:
)para
-\n    
(itemizedlist
-\n      
(listitem
(para
-cut the 
(emphasis
-scion
)emphasis
)para
)listitem
-\n      
(listitem
(para
-bind it
)para
)listitem
-\n    
)itemizedlist
-\n  
)section
-\n
)article
