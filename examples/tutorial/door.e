; A door with a lock: what there is, and what events change.
sort door
door Front

fluent Locked(door)
fluent Open(door)
event Unlock(door)
event Push(door)

Terminates(Unlock(door),Locked(door),time).
!HoldsAt(Locked(door),time) -> Initiates(Push(door),Open(door),time).
