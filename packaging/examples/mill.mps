* Desks and chairs for one week: free MPS, as most solvers read it.
NAME mill
OBJSENSE
 MAX
ROWS
 N profit
 L hours
 G orders
COLUMNS
 whole 'MARKER' 'INTORG'
 desk profit 45 hours 3
 desk orders 1
 chair profit 20.5 hours 1.25
 chair orders 1
 whole 'MARKER' 'INTEND'
 overtime profit -3.5 hours -1
RHS
 RHS profit 10 hours 40
 RHS orders 8
RANGES
 RNG orders 24
BOUNDS
 UP BND desk 9
 PL BND chair
 UP BND overtime 8.2
ENDATA
