; Abduction: the lawn was dry and is wet an hour later. What may have happened?
;
; What happens isn't told, so each narrative is an explanation: it rained, the sprinkler ran, or both. The sprinkler runs at night alone,
; and nothing happens at the last time.

fluent Wet()
fluent Night()
event Rain()
event Sprinkle()

Initiates(Rain(),Wet(),time).
Initiates(Sprinkle(),Wet(),time).
Happens(Sprinkle(),time) -> HoldsAt(Night(),time).

HoldsAt(Night(),0).
!HoldsAt(Wet(),0).
HoldsAt(Wet(),1).
!Happens(event,1).

range time 0 1

; model 1:
; 0
; Night().
; Happens(Sprinkle(), 0).
; 1
; +Wet().
; P
; model 2:
; 0
; Night().
; Happens(Rain(), 0).
; 1
; +Wet().
; P
; model 3:
; 0
; Night().
; Happens(Rain(), 0).
; Happens(Sprinkle(), 0).
; 1
; +Wet().
; P
; complete: 3
