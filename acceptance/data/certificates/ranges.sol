QSopt_ex 2.5.10.3: optimal solution; objective -13/2
certified optimal: exactly -6.5

Options
3
1
1
0
2
2
2
2
1.5
0.5
-1
-3
objno 0 0
suffix 0 2 8 0 0
sstatus
0 1
1 1
suffix 1 2 8 0 0
sstatus
0 3
1 5
