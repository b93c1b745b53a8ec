; Planning: Nathan is in the bedroom and is to have the milk at time 3. The milk is in the kitchen, and one goes there through the hall.
;
; Each narrative is a plan. At most one thing is done at a time, and nobody goes where there is no door.
; Taking the milk is all that is left to do at time 2, so there is one plan.

sort room
room Bedroom, Hall, Kitchen

predicate Door(room,room)
fluent In(room)
fluent HasMilk()
event Go(room,room)
event Take()

; The doors are these alone.
Theta: Door(Bedroom,Hall).
Theta: Door(Hall,Bedroom).
Theta: Door(Hall,Kitchen).
Theta: Door(Kitchen,Hall).
completion Theta Door

Initiates(Go(room1,room2),In(room2),time).
Terminates(Go(room1,room2),In(room1),time).
Initiates(Take(),HasMilk(),time).

Happens(Go(room1,room2),time) -> HoldsAt(In(room1),time) & Door(room1,room2).
Happens(Take(),time) -> HoldsAt(In(Kitchen),time) & !HoldsAt(HasMilk(),time).
Happens(event1,time) & Happens(event2,time) -> event1=event2.

HoldsAt(In(room),0) <-> room=Bedroom.
!HoldsAt(HasMilk(),0).
HoldsAt(HasMilk(),3).
!Happens(event,3).

range time 0 3

; model 1:
; 0
; In(Bedroom).
; Happens(Go(Bedroom, Hall), 0).
; 1
; -In(Bedroom).
; +In(Hall).
; Happens(Go(Hall, Kitchen), 1).
; 2
; -In(Hall).
; +In(Kitchen).
; Happens(Take(), 2).
; 3
; +HasMilk().
; P
; Door(Bedroom, Hall).
; Door(Hall, Bedroom).
; Door(Hall, Kitchen).
; Door(Kitchen, Hall).
; complete: 1
