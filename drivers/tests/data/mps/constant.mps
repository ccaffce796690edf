NAME t
ROWS
 N o
 G r
COLUMNS
 x o 2 r 1
RHS
 o 3 r 5
ENDATA
