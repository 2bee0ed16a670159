#program initial.
closed.
dark.

#program dynamic.
{ open } :- 'closed.
open :- 'open.
closed :- 'closed, not open.
lit :- 'lit.
dark :- 'dark, not lit.
:- open, 'closed, lit, 'dark.

#program always.
{ lit' } :- dark.

#program final.
:- closed.
:- dark.
