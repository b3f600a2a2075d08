Minimize
 objective: 0 My_Plan_A2
Subject To
 reached: 28 My_Plan_A2 - 21 plan_B2 = 408
 row1: 2 My_Plan_A2 + 3 plan_B2 <= 1
 row3: 0.1 plan_B2 >= 2.25
 row4: 0 My_Plan_A2 <= 5
 row5: 1 _e1_A1 + 1 plan_B2 = 0
 least_My_Plan_A2: 3 My_Plan_A2 >= 1
Bounds
 My_Plan_A2 free
 -5 <= plan_B2 <= 7
 _e1_A1 free
General
 plan_B2
End
