QSopt_ex 2.5.10.3: optimal solution; objective 175/4 (integer variables relaxed)
certified optimal for the relaxation: exactly 43.75

Options
3
1
1
0
2
2
3
3
1.5
0.5
0
5.25
4.375
objno 0 0
suffix 4 1 3 0 0
rc
0 -0.25
suffix 0 3 8 0 0
sstatus
0 3
1 1
2 1
suffix 1 2 8 0 0
sstatus
0 4
1 4
