% What the door of a lift may do when it is called.
#program always.
{ call }.
{ open }.

#program initial.
% nobody calls at first, and somebody does later
:- not &tel { ~ call & >? call }.
% each call is answered by an open door, at once or later
:- not &tel { >* (call -> >? open) }.
% the door opens only where it has been called
:- not &tel { >* (open -> <? call) }.
% it doesn't stay open for two instants
:- not &tel { >* (open -> >: ~ open) }.
