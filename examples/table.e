; Two agents: a table is raised only if both of its ends are lifted at once. If one end alone is lifted, what stands on it slides off.
;
; Who lifts is not told. The table is up at time 1 and the vase still stands on it, so both lifted at time 0.

sort agent
agent Ann, Bob

fluent Up()
fluent OnTable()
event Lift(agent)

Happens(Lift(Ann),time) & Happens(Lift(Bob),time) -> Initiates(Lift(agent),Up(),time).
Happens(Lift(agent1),time) & agent1!=agent2 & !Happens(Lift(agent2),time) -> Terminates(Lift(agent1),OnTable(),time).

!HoldsAt(Up(),0).
HoldsAt(OnTable(),0).
HoldsAt(Up(),1).
HoldsAt(OnTable(),1).
!Happens(event,1).

range time 0 1

; model 1:
; 0
; OnTable().
; Happens(Lift(Ann), 0).
; Happens(Lift(Bob), 0).
; 1
; +Up().
; P
; complete: 1
