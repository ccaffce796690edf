QSopt_ex 2.5.10.3: optimal solution; objective 19
certified optimal: exactly 19

Options
3
1
1
0
2
2
2
2
1
0
2
4
objno 0 0
suffix 4 1 3 0 0
rc
1 1
suffix 0 2 8 0 0
sstatus
0 1
1 4
suffix 1 2 8 0 0
sstatus
0 4
1 1
