load door.e
range time 0 2

HoldsAt(Locked(Front),0).
!HoldsAt(Open(Front),0).
HoldsAt(Open(Front),2).

!Happens(event,2).
