; Postdiction: the kettle was heated at time 0 and isn't hot at time 1. Was there water in it?
;
; Nothing is said of Full at time 0. In the one narrative it doesn't hold: the kettle was empty.

fluent Full()
fluent Hot()
event Heat()

HoldsAt(Full(),time) -> Initiates(Heat(),Hot(),time).

Delta: Happens(Heat(),0).
completion Delta Happens

!HoldsAt(Hot(),0).
!HoldsAt(Hot(),1).

range time 0 1

; model 1:
; 0
; Happens(Heat(), 0).
; 1
; P
; complete: 1
