(sales
-\n  
(sale
Aregion north
Aarticle lamp
Apieces 120
)sale
-\n  
(sale
Aregion south
Aarticle chair
Apieces 45
)sale
-\n  
(sale
Aregion north
Aarticle table
Apieces 310
)sale
-\n  
(sale
Aregion east
Aarticle lamp
Apieces 7
)sale
-\n  
(sale
Aregion north
Aarticle lamp
Apieces 95
)sale
-\n  
(sale
Aregion south
Aarticle table
Apieces 45
)sale
-\n  
(sale
Aregion north
Aarticle chair
Apieces 215
)sale
-\n  
(sale
Aregion south
Aarticle lamp
Apieces 480
)sale
-\n
)sales
