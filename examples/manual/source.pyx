(manual
-\n  
(chapter
-\n    
(title
-Setting up
)title
-\n    
(para
-Unpack it
(note
-Keep the box.
)note
- and read on.
)para
-\n    
(section
-\n      
(title
-The parts
)title
-\n      
(figure
-All parts
)figure
-\n      
(para
-Count them
(note
-There are twelve.
)note
-.
)para
-\n    
)section
-\n    
(section
-\n      
(title
-The tools
)title
-\n      
(section
(title
-What you have
)title
(figure
-A key
)figure
)section
-\n      
(section
(title
-What you need
)title
(para
-A hammer.
)para
)section
-\n    
)section
-\n  
)chapter
-\n  
(chapter
-\n    
(title
-Using it
)title
-\n    
(para
-Push the button
(note
-The red one.
)note
-.
)para
-\n    
(figure
-The button
)figure
-\n  
)chapter
-\n  
(appendix
-\n    
(title
-Parts
)title
-\n    
(section
(title
-Screws
)title
(para
-Ten
(note
-And one more.
)note
-.
)para
)section
-\n  
)appendix
-\n  
(appendix
(title
-Words
)title
)appendix
-\n
)manual
