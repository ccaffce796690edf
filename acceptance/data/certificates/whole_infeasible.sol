QSopt_ex 2.5.10.3: optimal solution; objective 13/2 (integer variables relaxed)
certified optimal for the relaxation: exactly 6.5

Options
3
1
1
0
1
1
2
2
0.5
6.5
0
objno 0 0
suffix 4 1 3 0 0
rc
1 -2
suffix 0 2 8 0 0
sstatus
0 1
1 3
suffix 1 1 8 0 0
sstatus
0 5
