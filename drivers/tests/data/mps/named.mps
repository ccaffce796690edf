NAME p
OBJSENSE
 MAX
ROWS
 E e
 N cost
 L l
 N other
 G g
COLUMNS
 a cost 1
 a e 2
 M0 'MARKER' 'INTORG'
 b other 3
 c l -4
 M1 'MARKER' 'INTEND'
 d g 1
 f e 0
RHS
 RHS cost -5
 RHS e 6
 RHS other 9
RANGES
 RNG e -2
 RNG l -3
 RNG g 1
BOUNDS
 UP BND a -1
 UI BND d 7
 FX BND c 2
 MI BND f
ENDATA
