; A chain of triggers: the first of four dominoes is pushed at time 0. Does the last one fall?
;
; A domino that has fallen hits the next one, which stands. Nothing happens but the push and these hits. The numbers of the dominoes are
; whole numbers: at the last one `domino+1` is out of range, so no rule speaks of a fifth.

sort domino: integer
range domino 1 4

fluent Down(domino)
event Push(domino)

Initiates(Push(domino),Down(domino),time).

Delta: Happens(Push(1),0).
Delta: HoldsAt(Down(domino),time) & !HoldsAt(Down(domino+1),time) -> Happens(Push(domino+1),time).
completion Delta Happens

!HoldsAt(Down(domino),0).

range time 0 4

; model 1:
; 0
; Happens(Push(1), 0).
; 1
; +Down(1).
; Happens(Push(2), 1).
; 2
; +Down(2).
; Happens(Push(3), 2).
; 3
; +Down(3).
; Happens(Push(4), 3).
; 4
; +Down(4).
; P
; complete: 1
