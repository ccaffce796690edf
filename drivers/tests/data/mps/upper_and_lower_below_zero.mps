NAME t
ROWS
 N o
 G r
COLUMNS
 x o -1 r 1
RHS
 r -9
BOUNDS
 LO B x -7
 UP B x -2
ENDATA
