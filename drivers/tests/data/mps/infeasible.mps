NAME t
ROWS
 N o
 G r
 L s
COLUMNS
 x o 1 r 1
 x s 1
RHS
 r 3 s 2
ENDATA
