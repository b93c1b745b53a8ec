; Abduction: James was asleep at time 0 and is awake at time 1. What happened?
;
; There is no completion of Happens, so whatever explains the observations may have happened.
; In both narratives he woke up at time 0; in the second he wakes up at time 1 as well, which
; changes nothing any more.

load foundations/Root.e
load foundations/EC.e

sort agent
agent James

fluent Awake(agent)
event WakeUp(agent)

[agent,time] Initiates(WakeUp(agent),Awake(agent),time).

!HoldsAt(Awake(James),0).
HoldsAt(Awake(James),1).

range time 0 1
range offset 1 1

; model 1:
; 0
; Happens(WakeUp(James), 0).
; 1
; +Awake(James).
; P
; model 2:
; 0
; Happens(WakeUp(James), 0).
; 1
; +Awake(James).
; Happens(WakeUp(James), 1).
; P
; complete: 2
