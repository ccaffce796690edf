* fields begin at columns 2, 5, 15, 25, 40 and 50
NAME          KNAP
ROWS
 N  COST
 L  CAP
COLUMNS
    MARKER                 'MARKER'                 'INTORG'
    ONE       COST               -10                          CAP 5
    TWO       COST                -7   CAP                  4
    THREE     COST               -12   CAP                6.5
    MARKER                 'MARKER'                 'INTEND'
RHS
    RHS       COST              -5.5   CAP                 10
BOUNDS
 UP BND       ONE                  1
 BV BND       TWO
 UP BND       THREE                1
ENDATA
