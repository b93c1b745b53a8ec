; A file that others load: parents and grandparents, whoever the persons are.
;
; A file that loads it declares persons, and says with the label Facts who is a parent of whom. On its own it has no persons.

sort person

predicate Parent(person,person)
predicate Grandparent(person,person)

Theta: Parent(person1,person2) & Parent(person2,person3) -> Grandparent(person1,person3).
completion Theta Grandparent
completion Facts Parent

; model 1:
; P
; complete: 1
