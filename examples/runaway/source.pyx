(queue
(job
-resize photo 1
)job
(job
-resize photo 2
)job
(job
-resize photo 3
)job
(job
-resize photo 4
)job
(job
-resize photo 5
)job
(job
-resize photo 6
)job
(job
-resize photo 7
)job
(job
-resize photo 8
)job
(job
-resize photo 9
)job
(job
-resize photo 10
)job
(job
-resize photo 11
)job
(job
-resize photo 12
)job
(job
-resize photo 13
)job
(job
-resize photo 14
)job
(job
-resize photo 15
)job
(job
-resize photo 16
)job
(job
-resize photo 17
)job
(job
-resize photo 18
)job
(job
-resize photo 19
)job
(job
-resize photo 20
)job
(job
-resize photo 21
)job
(job
-resize photo 22
)job
(job
-resize photo 23
)job
(job
-resize photo 24
)job
)queue
