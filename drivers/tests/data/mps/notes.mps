ROWS
 N o
COLUMNS
 M0 'MARKER' 'INTORG'
 a o 1
 b o 1
 c o 1
 d o 1
 e o 1
 f o 1
 g o 1
 M1 'MARKER' 'INTEND'
 x o 1
 y o 1
 z o 1
RHS
BOUNDS
 PL BND b
 UP BND c 3
 LO BND d 0
 UP BND x -1
 UP BND y 0
 MI BND z
 UP BND z -3
ENDATA
