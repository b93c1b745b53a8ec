load keys.e
range time 0 2

HoldsAt(Locked(door),0).
!HoldsAt(Open(door),0).
!HoldsAt(HasKey(door),0).

{door} HoldsAt(Open(door),2).
!Happens(event,2).
