load rules.e
door Back

fluent HasKey(door)
event TakeKey(door)

Initiates(TakeKey(door),HasKey(door),time).

Happens(TakeKey(door),time) -> !HoldsAt(HasKey(door),time).
Happens(Unlock(door),time) -> HoldsAt(HasKey(door),time).
Happens(event1,time) & Happens(event2,time) -> event1=event2.
