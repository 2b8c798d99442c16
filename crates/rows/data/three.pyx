(r
(a
)a
(b
)b
(c
)c
)r
