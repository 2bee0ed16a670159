% What to eat on five days. There are 46 menus, and `--models=2` prints the first two of them.
#program always.
meal(fish;pasta;soup).
number(1..5).
% one meal a day
{ eat(M) } :- meal(M).
eaten :- eat(M), meal(M).
:- not eaten.
:- eat(M), eat(N), meal(M), meal(N), M < N.

#program initial.
day(1).
% fish on some day
:- not &tel { >? eat(fish) }.

#program dynamic.
day(Y) :- 'day(X), number(X), Y = X+1, number(Y).
% and nothing on two days in a row
:- eat(M), 'eat(M), meal(M).

#program final.
:- not day(5).

#show eat/1.
