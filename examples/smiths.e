; A file that loads another: three persons of a family, and who is a grandparent of whom.
;
; The name of the loaded file is looked up from the folder in which the program runs: the top of the repository.

load examples/family.e

person Ann, Bob, Cid

Facts: Parent(Ann,Bob).
Facts: Parent(Bob,Cid).

; model 1:
; P
; Parent(Ann, Bob).
; Parent(Bob, Cid).
; Grandparent(Ann, Cid).
; complete: 1
