; Prediction: an empty, cold kettle is filled and then heated. Is the water hot afterwards?
;
; Heating has its effect only if there is water in the kettle. Filling it with cold water ends the heat.

fluent Full()
fluent Hot()
event Fill()
event Heat()

Initiates(Fill(),Full(),time).
Terminates(Fill(),Hot(),time).
HoldsAt(Full(),time) -> Initiates(Heat(),Hot(),time).

!HoldsAt(Full(),0).
!HoldsAt(Hot(),0).

Delta: Happens(Fill(),0).
Delta: Happens(Heat(),1).
completion Delta Happens

range time 0 2

; model 1:
; 0
; Happens(Fill(), 0).
; 1
; +Full().
; Happens(Heat(), 1).
; 2
; +Hot().
; P
; complete: 1
