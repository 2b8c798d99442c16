C A notice, with markup from elsewhere in it. 
?reader wide
(notice
Axmlns:h http://www.w3.org/1999/xhtml
-\n  
(title
-Road closed
)title
-\n  
(h:title
-Not this one
)h:title
-\n  
(line
-Bridge Street is closed\tuntil Friday.
)line
-\n  
(line
-Use 
C the only other way 
(h:b
-Mill Lane
)h:b
-.
)line
-\n
)notice
