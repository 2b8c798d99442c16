(person
(name
-Ada
)name
