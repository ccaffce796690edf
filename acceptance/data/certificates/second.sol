QSopt_ex 2.5.10.3: optimal solution; objective 15
certified optimal: exactly 15

Options
3
1
1
0
1
1
1
1
2
7
objno 1 0
suffix 0 1 8 0 0
sstatus
0 1
suffix 1 1 8 0 0
sstatus
0 4
