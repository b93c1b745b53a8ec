; A question: is it possible that Tweety is an exception? No narrative is left, so it isn't.
;
; Without !! the sentence would belong to the completion, and make Tweety an exception.

load examples/exceptions.e

!!Exception(Tweety).

; complete: 0
