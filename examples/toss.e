; Chance: a coin that shows tails is tossed at time 0.
;
; The toss releases the coin from inertia: at time 1 it may show heads or not, and there is a
; narrative for each.

fluent Heads()
event Toss()

[time] Releases(Toss(),Heads(),time).

!HoldsAt(Heads(),0).
Delta: Happens(Toss(),0).
completion Delta Happens

range time 0 1

; model 1:
; 0
; Happens(Toss(), 0).
; 1
; ReleasedAt(Heads(), 1).
; P
; model 2:
; 0
; Happens(Toss(), 0).
; 1
; +Heads().
; ReleasedAt(Heads(), 1).
; P
; complete: 2
