; Ramification: a lamp shines exactly where both of its switches are closed. The second one is closed at time 0. Does the lamp shine then?
;
; The lamp has no event of its own: what it does follows from a state constraint. It is noninertial, so that no inertia speaks of it.

sort switch
switch First, Second

fluent Closed(switch)
fluent Shines()
noninertial Shines
event Close(switch)

Initiates(Close(switch),Closed(switch),time).

HoldsAt(Shines(),time) <-> HoldsAt(Closed(First),time) & HoldsAt(Closed(Second),time).

HoldsAt(Closed(First),0).
!HoldsAt(Closed(Second),0).

Delta: Happens(Close(Second),0).
completion Delta Happens

range time 0 2

; model 1:
; 0
; Closed(First).
; Happens(Close(Second), 0).
; 1
; +Closed(Second).
; +Shines().
; 2
; P
; complete: 1
