(ledger
Amonth 2024-03
-\n  
(customer
Aid brandt
Aname Hofladen Brandt
-\n    
(order
Ano 116
(item
Acount 20
Acents 180
-Apples, kg
)item
)order
-\n  
)customer
-\n  
(customer
Aid lumiere
Aname Café Lumière
-\n    
(order
Ano 117
-\n      
(item
Acount 10
Acents 245
-Pears, kg
)item
-\n      
(item
Acount 6
Acents 550
-Honey, jars
)item
-\n    
)order
-\n    
(order
Ano 118
)order
-\n    
(order
Ano 119
-\n      
(item
Acount 3
Acents 305
-Quinces, kg
)item
-\n      
(item
Acount 1
Acents 90
Afree yes
-Apple, for the staff
)item
-\n    
)order
-\n  
)customer
-\n
)ledger
