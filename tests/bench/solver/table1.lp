% Table 1 of document 000: a ternary predicate (A,B,C) in which B and C are mandatory and each pair of B and C that occurs does so in
% 2 to 3 rows. All sizes are given, as there: clingo table1.lp -c a=10 -c b=2 -c c=2 -c rows=12
{ pair(1..b,1..c) }.
2 { row(1..a,Y,Z) } 3 :- pair(Y,Z).
:- not rows { row(X,Y,Z) } rows.
:- Y = 1..b, not pair(Y,_).
:- Z = 1..c, not pair(_,Z).
#show row/3.
