; A question: is it necessary that Opus is an exception? No narrative is left in which he isn't, so it is.

load examples/exceptions.e

!Exception(Opus).

; complete: 0
