(a
Axml:lang en-GB
(i
Ak 1
-1
)i
Cc
?t x
(p:i
Axmlns:p u
-2
)p:i
(i
-x y
)i
)a
