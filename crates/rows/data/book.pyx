(doc
Alang en
(chapter
(title
-Introduction
)title
(para
Atype warning
-p1
)para
(para
-p2
)para
)chapter
(chapter
(title
-Two
)title
(div
(para
-p3
)para
)div
)chapter
(chapter
)chapter
(chapter
)chapter
(chapter
(section
)section
(section
(para
-p4
)para
)section
)chapter
(figure
-9007199254740991
)figure
(employee
Asecretary yes
Aassistant no
)employee
(employee
Asecretary yes
)employee
(olist
(item
-1
)item
(item
-1.5
)item
)olist
(para
Atype warning
)para
(para
Atype warning
)para
(para
Aname n
)para
(para
Atype warning
)para
(para
Atype warning
)para
(para
Atype warning
)para
(appendix
-9007199254740992
)appendix
)doc
