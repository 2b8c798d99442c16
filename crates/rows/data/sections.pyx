(doc
Axmlns:p u
Ak 0
(sec
Ak 1
Ap:k 2
-x
(a
-1
)a
Cc
?t d
(p:a
)p:a
(a
Ak 3
(a
-2.5
)a
)a
)sec
(sec
(a
-3
)a
(a
-4
)a
)sec
)doc
