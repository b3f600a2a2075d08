NAME model
ROWS
 N objective
 E reached
 L row1
 G row3
 L row4
 E row5
 G least_My_Plan_A2
COLUMNS
 My_Plan_A2 objective 0
 My_Plan_A2 reached 28
 My_Plan_A2 row1 2
 My_Plan_A2 least_My_Plan_A2 3
 marker_plan_B2 'MARKER' 'INTORG'
 plan_B2 objective 0
 plan_B2 reached -21
 plan_B2 row1 3
 plan_B2 row3 0.1
 plan_B2 row5 1
 marker__e1_A1 'MARKER' 'INTEND'
 _e1_A1 objective 0
 _e1_A1 row5 1
RHS
 rhs reached 408
 rhs row1 1
 rhs row3 2.25
 rhs row4 5
 rhs least_My_Plan_A2 1
BOUNDS
 MI bounds My_Plan_A2
 PL bounds My_Plan_A2
 LO bounds plan_B2 -5
 UP bounds plan_B2 7
 MI bounds _e1_A1
 PL bounds _e1_A1
ENDATA
