QSopt_ex 2.5.10.3: optimal solution; objective 1
certified optimal: exactly 1

Options
3
1
1
0
0
0
2
2
3
4
objno 0 0
suffix 4 2 3 0 0
rc
0 1
1 -1
suffix 0 2 8 0 0
sstatus
0 3
1 4
