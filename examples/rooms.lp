% Someone goes from room to room, puts out all lights and comes back.
#program always.
room(hall;study;cellar).
door(hall,study). door(study,hall).
door(hall,cellar). door(cellar,hall).

#program initial.
in(hall).
light(study). light(cellar).

#program dynamic.
% a step is to go through a door, or to press the switch of the room, or to wait
{ go(X,Y) } :- 'in(X), door(X,Y).
{ press(X) } :- 'in(X), room(X).
:- go(X,Y), go(X,Z), door(X,Y), door(X,Z), Y < Z.
:- go(X,Y), press(X), door(X,Y).
in(Y) :- go(X,Y), door(X,Y).
in(X) :- 'in(X), room(X), not left(X).
left(X) :- go(X,Y), door(X,Y).
% a switch turns its light on or out
light(X) :- 'light(X), room(X), not press(X).
light(X) :- press(X), room(X), not 'light(X).

#program final.
:- light(X), room(X).
:- not in(hall).
