; Ramification: an alarm is armed if and only if it is switched on and the door is closed. It is switched on while the door is closed.
;
; Armed is noninertial: no inertia speaks of it, it follows from the two others at each time.

fluent On()
fluent Closed()
fluent Armed()
noninertial Armed
event SwitchOn()
event OpenDoor()

Initiates(SwitchOn(),On(),time).
Terminates(OpenDoor(),Closed(),time).
HoldsAt(Armed(),time) <-> HoldsAt(On(),time) & HoldsAt(Closed(),time).

!HoldsAt(On(),0).
HoldsAt(Closed(),0).
Delta: Happens(SwitchOn(),0).
Delta: Happens(OpenDoor(),1).
completion Delta Happens

range time 0 2

; model 1:
; 0
; Closed().
; Happens(SwitchOn(), 0).
; 1
; +On().
; +Armed().
; Happens(OpenDoor(), 1).
; 2
; -Closed().
; -Armed().
; P
; complete: 1
