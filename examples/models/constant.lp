\ the objective is 21 times that of the sheet
Minimize
 objective: 7 plan_A2 + 3 one
Subject To
Bounds
 0 <= plan_A2
 one = 1
End
