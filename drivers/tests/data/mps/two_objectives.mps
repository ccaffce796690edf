NAME t
ROWS
 N first
 L cap
 N second
 G low
COLUMNS
 x second 5 first 1
 x low 2
 y second 1 cap 1
RHS
 second 7 low 3
 cap 2
ENDATA
