* the objective is -1 times that of the sheet, and is to be least
NAME model
ROWS
 N objective
 L row1
 L row2
COLUMNS
 marker_plan_B2 'MARKER' 'INTORG'
 plan_B2 objective -2.5
 plan_B2 row1 2
 plan_B2 row2 1
 plan_C2 objective -4
 plan_C2 row1 3
 plan_C2 row2 2
 marker_end 'MARKER' 'INTEND'
RHS
 rhs row1 24
 rhs row2 14.5
BOUNDS
 LO bounds plan_B2 0
 PL bounds plan_B2
 LO bounds plan_C2 0
 PL bounds plan_C2
ENDATA
