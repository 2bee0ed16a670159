rain.

walk :- not drive, not cycle.
drive :- not walk, not cycle.
cycle :- not walk, not drive.

wet :- cycle, rain.
:- wet.
