load keys.e
range time 0 3

HoldsAt(Locked(door),0).
!HoldsAt(Open(door),0).
!HoldsAt(HasKey(door),0).

{door} HoldsAt(Open(door),3).
!Happens(event,3).
