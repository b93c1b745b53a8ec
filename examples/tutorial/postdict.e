load door.e
range time 0 1

!HoldsAt(Open(Front),0).
Delta: Happens(Push(Front),0).
completion Delta Happens

!HoldsAt(Open(Front),1).
