QSopt_ex 2.5.10.3: optimal solution; objective 1
certified optimal: exactly 1

Options
3
1
1
0
2
2
2
2
0
1
1
2
objno 0 0
suffix 4 1 3 0 0
rc
1 -1
suffix 0 2 8 0 0
sstatus
0 1
1 4
suffix 1 1 8 0 0
sstatus
1 3
