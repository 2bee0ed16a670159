% A walker goes through a row of cells, or stands still.
#const cells = 5.
#program always.
cell(1..cells).

#program initial.
at(1).

#program dynamic.
{ go }.
at(Y) :- go, 'at(X), cell(X), Y = X+1, cell(Y).
at(X) :- 'at(X), cell(X), not go.

#program final.
:- not at(cells).
