* the objective is 21 times that of the sheet, and is to be least
NAME model
ROWS
 N objective
COLUMNS
 plan_A2 objective 7
 one objective 3
RHS
BOUNDS
 LO bounds plan_A2 0
 PL bounds plan_A2
 FX bounds one 1
ENDATA
