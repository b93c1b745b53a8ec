; Explanation: the light was off at time 0 and is on at time 1. Bob didn't press the switch. What happened?
;
; Happens isn't completed, so each narrative is an explanation. Nothing happens at the last time.

sort agent
agent Ann, Bob
fluent On()
event Press(agent)

Initiates(Press(agent),On(),time).
!HoldsAt(On(),0).
HoldsAt(On(),1).
!Happens(Press(Bob),time).
!Happens(event,1).
range time 0 1

; model 1:
; 0
; Happens(Press(Ann), 0).
; 1
; +On().
; P
; complete: 1
