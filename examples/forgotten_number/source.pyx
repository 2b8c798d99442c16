(hall
(taken
-112
)taken
)hall
