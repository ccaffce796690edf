QSopt_ex 2.5.10.3: optimal solution; objective 22/5
certified optimal: exactly 4.4

Options
3
1
1
0
2
2
2
2
0.3
0.5
4
0.8
objno 0 0
suffix 0 2 8 0 0
sstatus
0 1
1 1
suffix 1 2 8 0 0
sstatus
0 3
1 3
