(greeting
(name
-Ada
)name
)greeting
