NAME nl
ROWS
 N obj
 E zdef
COLUMNS
 x0 zdef 1
 z obj 1
 z zdef -3
RHS
BOUNDS
 FR BND x0
 FR BND z
ENDATA
