; An option: with timediff off each time shows all fluents that hold, and not the changes alone.

option timediff off

fluent On()
fluent Open()
event SwitchOff()

Terminates(SwitchOff(),On(),time).

HoldsAt(On(),0).
HoldsAt(Open(),0).
Delta: Happens(SwitchOff(),1).
completion Delta Happens

range time 0 2

; model 1:
; 0
; On().
; Open().
; 1
; On().
; Open().
; Happens(SwitchOff(), 1).
; 2
; Open().
; P
; complete: 1
