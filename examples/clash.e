; An impossible case: at time 0 the door is opened and closed at once.
;
; By the first effect it is open at time 1, by the second it isn't: no narrative is left, so the
; two can't happen at the same time.

fluent Open()
event OpenDoor()
event CloseDoor()

[time] Initiates(OpenDoor(),Open(),time).
[time] Terminates(CloseDoor(),Open(),time).

!HoldsAt(Open(),0).
Happens(OpenDoor(),0).
Happens(CloseDoor(),0).

range time 0 1

; complete: 0
