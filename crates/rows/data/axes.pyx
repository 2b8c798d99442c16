(r
Ak 1
Al 2
-x
(a
Ak 3
Cy
(b
-z
)b
)a
?t w
(c
)c
)r
