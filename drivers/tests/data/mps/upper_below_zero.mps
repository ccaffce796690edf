NAME t
ROWS
 N o
 G r
COLUMNS
 x o 1 r 1
 y o 1 r 1
RHS
 r -5
BOUNDS
 UP B x -2
 UP B y 1
ENDATA
