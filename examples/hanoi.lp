% Three disks of a tower of Hanoi go from the first peg to the third.
#const disks = 3.
#program always.
disk(1..disks). peg(1..3).

#program initial.
on(D,1) :- disk(D).

#program dynamic.
% one disk is moved at each step
{ move(D,P) } :- disk(D), peg(P).
moved :- move(D,P), disk(D), peg(P).
:- not moved.
:- move(D,P), move(E,Q), disk(D), disk(E), peg(P), peg(Q), D < E.
:- move(D,P), move(D,Q), disk(D), peg(P), peg(Q), P < Q.
% not where it is, and no smaller disk lies on it or where it goes
:- move(D,P), 'on(D,P), disk(D), peg(P).
:- move(D,P), 'on(D,Q), 'on(E,Q), disk(D), disk(E), peg(P), peg(Q), E < D.
:- move(D,P), 'on(E,P), disk(D), disk(E), peg(P), E < D.
goes(D) :- move(D,P), disk(D), peg(P).
on(D,P) :- move(D,P), disk(D), peg(P).
on(D,P) :- 'on(D,P), disk(D), peg(P), not goes(D).

#program final.
:- disk(D), not on(D,3).
