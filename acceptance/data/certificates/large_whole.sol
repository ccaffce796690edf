QSopt_ex 2.5.10.3: optimal solution; objective 98765433 (integer variables relaxed)
certified optimal for the relaxation: exactly 98765433

Options
3
1
1
0
1
1
1
1
0
98765432
objno 0 0
suffix 4 1 3 0 0
rc
0 1
suffix 0 1 8 0 0
sstatus
0 4
suffix 1 1 8 0 0
sstatus
0 1
