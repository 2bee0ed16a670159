% An alarm with two sensors. It rings from the instant at which one trips until someone resets it.
#program always.
sensor(door;roof).
{ trip(S) } :- sensor(S).
{ reset }.
ring(S) :- trip(S), sensor(S), not reset.
ring(S) :- 'ring(S), sensor(S), not reset.

#program initial.
% the roof trips at some instant, and the door never
:- not &tel { >? trip(roof) & >* ~ trip(door) }.
% someone resets it only where it rang just before
:- not &tel { >* (reset -> < ring(roof)) }.
% and in the end nothing rings
:- sensor(S), not &tel { >> ~ ring(S) }.
