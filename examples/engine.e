; Defaults: starting a car makes it run, unless it is broken. One car is known to be broken.
;
; The completion of Broken says that nothing is broken except what the sentences labelled Theta say, so the other car runs.

sort car
car Old, New

predicate Broken(car)
fluent Running(car)
event Start(car)

!Broken(car) -> Initiates(Start(car),Running(car),time).

Theta: Broken(Old).
completion Theta Broken

!HoldsAt(Running(car),0).
Delta: Happens(Start(car),0).
completion Delta Happens

range time 0 1

; model 1:
; 0
; Happens(Start(Old), 0).
; Happens(Start(New), 0).
; 1
; +Running(New).
; P
; Broken(Old).
; complete: 1
