; Defaults: birds fly, unless they are exceptions; penguins are. Opus is a penguin, Tweety isn't.
;
; The completion of Exception says that nothing is one but what the sentences labelled Theta say,
; so Tweety flies.

sort bird
bird Tweety, Opus

predicate Penguin(bird)
predicate Exception(bird)
predicate Flies(bird)

Flies(bird) <-> !Exception(bird).
Theta: Penguin(bird) -> Exception(bird).
completion Theta Exception

Penguin(Opus).
!Penguin(Tweety).

; model 1:
; P
; Penguin(Opus).
; Exception(Opus).
; Flies(Tweety).
; complete: 1
