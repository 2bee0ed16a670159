% A farmer takes a fox, a goose and a sack of beans over a river, one at a time.
#program always.
item(beans;fox;goose).
being(farmer;beans;fox;goose).
bank(east;west).
over(east,west). over(west,east).
eats(fox,goose). eats(goose,beans).
% one eats the other where the farmer is away
:- at(X,P), at(Y,P), eats(X,Y), bank(P), not at(farmer,P).

#program initial.
at(X,west) :- being(X).

#program dynamic.
% the farmer crosses at every step, alone or with one item from his bank
{ take(X) } :- item(X).
:- take(X), take(Y), item(X), item(Y), X < Y.
:- take(X), item(X), 'at(farmer,P), bank(P), not 'at(X,P).
at(farmer,Q) :- 'at(farmer,P), over(P,Q).
at(X,Q) :- take(X), item(X), 'at(X,P), over(P,Q).
at(X,P) :- 'at(X,P), item(X), bank(P), not take(X).

#program final.
:- at(X,west), being(X).

#show take/1.
