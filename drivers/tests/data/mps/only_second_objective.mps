NAME t
ROWS
 N o
 N p
 G r
COLUMNS
 y p 1
 x o 1 r 1
RHS
 r 3
ENDATA
