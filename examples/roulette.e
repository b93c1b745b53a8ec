; Chance: the ball of a small wheel comes to rest in one of three pockets.
;
; Spinning releases where the ball lies, and a state constraint says that it lies in one pocket, whatever the time. So there is a narrative for
; each pocket.

sort pocket
pocket Red, Black, Zero

fluent In(pocket)
event Spin()

Releases(Spin(),In(pocket),time).

HoldsAt(In(pocket1),time) & HoldsAt(In(pocket2),time) -> pocket1=pocket2.
{pocket} HoldsAt(In(pocket),time).

HoldsAt(In(Zero),0).
Delta: Happens(Spin(),0).
completion Delta Happens

range time 0 1

; model 1:
; 0
; In(Zero).
; Happens(Spin(), 0).
; 1
; ReleasedAt(In(Red), 1).
; ReleasedAt(In(Black), 1).
; ReleasedAt(In(Zero), 1).
; P
; model 2:
; 0
; In(Zero).
; Happens(Spin(), 0).
; 1
; +In(Black).
; -In(Zero).
; ReleasedAt(In(Red), 1).
; ReleasedAt(In(Black), 1).
; ReleasedAt(In(Zero), 1).
; P
; model 3:
; 0
; In(Zero).
; Happens(Spin(), 0).
; 1
; +In(Red).
; -In(Zero).
; ReleasedAt(In(Red), 1).
; ReleasedAt(In(Black), 1).
; ReleasedAt(In(Zero), 1).
; P
; complete: 3
