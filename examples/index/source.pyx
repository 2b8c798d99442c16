(book
-\n  
(preface
-\n    
(page
Ano 4
-On 
(term
-trees
)term
- and 
(term
-Turing
)term
-.
)page
-\n  
)preface
-\n  
(body
-\n    
(page
Ano 12
-A 
(term
-node
)term
- of a 
(term
-tree
)term
-, and its 
(term
-axis
)term
-.
)page
-\n    
(page
Ano 9
-The 
(term
-root
)term
- is a 
(term
-node
)term
-. What 
(term
-Root
)term
- said: 
(term
-node
)term
-.
)page
-\n    
(page
Ano 104
-An 
(term
-axis
)term
- has a 
(term
-node
)term
- or none.
)page
-\n    
(page
Ano 31
-The 
(term
-Tree
)term
- of 
(term
-Turing
)term
-.
)page
-\n  
)body
-\n
)book
