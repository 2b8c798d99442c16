(pages
-\n  
(page
Apath 
Achanged 2024-03-01
)page
-\n  
(page
Apath draft
Ahidden yes
)page
-\n  
(page
Apath orchard
Achanged 2024-02-11
(picture
Afile apples.jpg
)picture
(picture
Afile pears.jpg
)picture
)page
-\n  
(page
Apath contact
)page
-\n
)pages
