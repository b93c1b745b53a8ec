; Planning: a lift is at floor 1 and is to be at floor 3 at time 2. What has to be done?
;
; Floors are whole numbers. In the first sentence floor+1 has to be a floor, so the sentence says nothing of the highest one.

sort floor: integer
range floor 1 3

fluent At(floor)
event Up()
event Down()

HoldsAt(At(floor),time) -> Initiates(Up(),At(floor+1),time).
HoldsAt(At(floor),time) -> Terminates(Up(),At(floor),time).
HoldsAt(At(floor),time) -> Initiates(Down(),At(floor-1),time).
HoldsAt(At(floor),time) -> Terminates(Down(),At(floor),time).

; Preconditions, and one thing at a time.
Happens(Up(),time) -> !HoldsAt(At(3),time).
Happens(Down(),time) -> !HoldsAt(At(1),time).
Happens(event1,time) & Happens(event2,time) -> event1=event2.

; The initial state, the goal, and nothing at the last time.
HoldsAt(At(floor),0) <-> floor=1.
HoldsAt(At(3),2).
!Happens(event,2).

range time 0 2

; model 1:
; 0
; At(1).
; Happens(Up(), 0).
; 1
; -At(1).
; +At(2).
; Happens(Up(), 1).
; 2
; -At(2).
; +At(3).
; P
; complete: 1
