Maximize
 objective: 2.5 plan_B2 + 4 plan_C2
Subject To
 row1: 2 plan_B2 + 3 plan_C2 <= 24
 row2: 1 plan_B2 + 2 plan_C2 <= 14.5
Bounds
 0 <= plan_B2
 0 <= plan_C2
General
 plan_B2
 plan_C2
End
