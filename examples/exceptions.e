; What the two questions possible.e and necessary.e are about: penguins are exceptions, and nothing else is.

sort bird
bird Opus, Tweety

predicate Penguin(bird)
predicate Exception(bird)

Penguin(bird) -> Exception(bird).
completion Exception

Penguin(Opus).
!Penguin(Tweety).

; model 1:
; P
; Penguin(Opus).
; Exception(Opus).
; complete: 1
