; Subsorts: dogs and cats are animals. What is said of animals is said of them too.
;
; The completions say that only dogs bark, and that only dogs chase, and cats alone.

sort animal
sort dog: animal, cat: animal
animal Nemo
dog Rex
cat Tom

predicate Barks(animal)
predicate Chases(dog,cat)
predicate Fed(animal)

Barks(dog).
Chases(dog,cat).
Fed(animal).
completion Barks
completion Chases

; model 1:
; P
; Barks(Rex).
; Chases(Rex, Tom).
; Fed(Nemo).
; Fed(Rex).
; Fed(Tom).
; complete: 1
