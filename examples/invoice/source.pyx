(invoice
Acurrency EUR
(number
-2024-0117
)number
(date
-2024-03-08
)date
(seller
(name
-Hofladen Brandt
)name
)seller
(customer
(name
-Café Lumière
)name
(city
-Leipzig
)city
)customer
(line
(item
-Apples, 20 kg
)item
-: 
(amount
-36.00
)amount
)line
(line
(item
-Pears, 10 kg
)item
-: 
(amount
-24.50
)amount
)line
(line
(item
-Honey, 6 jars
)item
-: 
(amount
-33.00
)amount
)line
(totals
(net
-93.50
)net
(tax
-6.55
)tax
(due
-100.05
)due
)totals
)invoice
