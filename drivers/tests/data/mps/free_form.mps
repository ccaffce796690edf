NAME t
ROWS
 N a_long_name_of_a_row
 L cap
COLUMNS
 x a_long_name_of_a_row -1 cap 2
RHS
 cap 3
ENDATA
