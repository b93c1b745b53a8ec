; Prediction: James sleeps, and wakes up at time 0. What is the case afterwards?
;
; The completion says that nothing happens but what the sentences labelled Delta say, so one
; narrative is left: at time 1 James is awake.

load foundations/Root.e
load foundations/EC.e

sort agent
agent James

fluent Awake(agent)
event WakeUp(agent)

[agent,time] Initiates(WakeUp(agent),Awake(agent),time).

!HoldsAt(Awake(James),0).

Delta: Happens(WakeUp(James),0).
completion Delta Happens

range time 0 1
range offset 1 1

; model 1:
; 0
; Happens(WakeUp(James), 0).
; 1
; +Awake(James).
; P
; complete: 1
