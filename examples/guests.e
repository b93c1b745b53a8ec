; One-word completion: who comes to the party? Whoever is invited and isn't away.
;
; Both predicates are completed in the unlabelled sentences about them, so Cid isn't invited, and only Bob is away.

sort guest
guest Ann, Bob, Cid

predicate Invited(guest)
predicate Away(guest)
predicate Comes(guest)

completion Invited
completion Away

Invited(Ann) & Invited(Bob).
Away(Bob).
Comes(guest) <-> Invited(guest) & !Away(guest).

; model 1:
; P
; Invited(Ann).
; Invited(Bob).
; Away(Bob).
; Comes(Ann).
; complete: 1
