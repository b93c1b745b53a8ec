; An option: with manualrelease on it is open which fluents are released at the first time.
;
; Here the gate is said to swing freely at time 0, so it may be shut or not at time 1. Latching it shuts it, and it stays shut.

option manualrelease on

fluent Shut()
event Latch()

Initiates(Latch(),Shut(),time).

ReleasedAt(Shut(),0).
!HoldsAt(Shut(),0).
Delta: Happens(Latch(),1).
completion Delta Happens

range time 0 2

; model 1:
; 0
; ReleasedAt(Shut(), 0).
; 1
; ReleasedAt(Shut(), 1).
; Happens(Latch(), 1).
; 2
; +Shut().
; P
; model 2:
; 0
; ReleasedAt(Shut(), 0).
; 1
; +Shut().
; ReleasedAt(Shut(), 1).
; Happens(Latch(), 1).
; 2
; P
; complete: 2
