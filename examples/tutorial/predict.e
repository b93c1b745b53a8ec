load door.e
range time 0 2

HoldsAt(Locked(Front),0).
!HoldsAt(Open(Front),0).

Delta: Happens(Unlock(Front),0).
Delta: Happens(Push(Front),1).
completion Delta Happens
