; Triggered events: a heater switches itself on when it is cold. The window is opened at time 0.
;
; Nothing happens but the opening of the window and what the trigger says.

fluent Cold()
fluent Heating()
event SwitchOn()
event OpenWindow()

Initiates(SwitchOn(),Heating(),time).
Initiates(OpenWindow(),Cold(),time).

Delta: Happens(OpenWindow(),0).
Delta: HoldsAt(Cold(),time) & !HoldsAt(Heating(),time) -> Happens(SwitchOn(),time).
completion Delta Happens

!HoldsAt(Cold(),0).
!HoldsAt(Heating(),0).

range time 0 2

; model 1:
; 0
; Happens(OpenWindow(), 0).
; 1
; +Cold().
; Happens(SwitchOn(), 1).
; 2
; +Heating().
; P
; complete: 1
