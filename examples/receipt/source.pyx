(order
Anumber 71
Aplaced 2024-05-02T09:14
Aclub no
Axmlns:gift urn:gift
(item
Acount 3
(name
-Pencils,\n    soft
)name
(price
-120
)price
)item
(item
Acount 1
(name
-Fountain pen
)name
(price
-3950
)price
)item
(item
Acount 0
(name
-Ink, blue
)name
(price
-450
)price
)item
(item
Acount 2
(name
-Notebook
)name
(price
-480
)price
(gift:wrap
Apaper red
)gift:wrap
)item
)order
