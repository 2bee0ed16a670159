% Four lamps in a row. Each switch turns its lamp and the ones beside it, and all lamps are to go out.
#program always.
lamp(1..4).
beside(X,Y) :- lamp(X), lamp(Y), Y = X+1.
beside(X,Y) :- lamp(X), lamp(Y), X = Y+1.

#program initial.
on(X) :- lamp(X).

#program dynamic.
% one switch at a time
{ press(X) } :- lamp(X).
pressed :- press(X), lamp(X).
:- not pressed.
:- press(X), press(Y), lamp(X), lamp(Y), X < Y.
turn(X) :- press(X), lamp(X).
turn(Y) :- press(X), beside(X,Y), lamp(X), lamp(Y).
on(X) :- 'on(X), lamp(X), not turn(X).
on(X) :- turn(X), lamp(X), not 'on(X).

#program final.
:- on(X), lamp(X).
