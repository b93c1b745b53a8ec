; Concurrent events: a car moves only if Ann and Bob push it at the same time.
;
; At time 0 Ann pushes alone, at time 1 both push.

sort agent
agent Ann, Bob

fluent Moved()
event Push(agent)

Happens(Push(Ann),time) & Happens(Push(Bob),time) -> Initiates(Push(agent),Moved(),time).

!HoldsAt(Moved(),0).
Delta: Happens(Push(Ann),0).
Delta: Happens(Push(agent),1).
completion Delta Happens

range time 0 2

; model 1:
; 0
; Happens(Push(Ann), 0).
; 1
; Happens(Push(Ann), 1).
; Happens(Push(Bob), 1).
; 2
; +Moved().
; P
; complete: 1
