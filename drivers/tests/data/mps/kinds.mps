NAME p
ROWS
 N cost
 G both
 N other
 L cap
COLUMNS
 M0 'MARKER' 'INTORG'
 i cost 1
 i both 1
 b both 2
 low both 1
 M1 'MARKER' 'INTEND'
 c cost 2
 'MARKER' cap 1
 v cap 1
RHS
 RHS both 3
BOUNDS
 UP BND b 1
 UP BND i 9
 UP BND low -1
 BV BND v
ENDATA
