"""One program: its rows, columns and numbers, in the forms that the other packages take."""
