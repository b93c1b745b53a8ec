; A long way: a robot goes along a corridor of 22 cells, one cell at a time. It is to be at the end at time 21, the soonest that it can be.
;
; There are 1,035 visible atoms, far more than `list` tries. The one narrative has a step at each time but the last.

sort cell: integer
range cell 1 22

fluent At(cell)
event Step()

HoldsAt(At(cell),time) -> Initiates(Step(),At(cell+1),time).
HoldsAt(At(cell),time) -> Terminates(Step(),At(cell),time).

HoldsAt(At(cell),0) <-> cell=1.
HoldsAt(At(22),21).
!Happens(Step(),21).
!Happens(Step(),22).

range time 0 22

; model 1:
; 0
; At(1).
; Happens(Step(), 0).
; 1
; -At(1).
; +At(2).
; Happens(Step(), 1).
; 2
; -At(2).
; +At(3).
; Happens(Step(), 2).
; 3
; -At(3).
; +At(4).
; Happens(Step(), 3).
; 4
; -At(4).
; +At(5).
; Happens(Step(), 4).
; 5
; -At(5).
; +At(6).
; Happens(Step(), 5).
; 6
; -At(6).
; +At(7).
; Happens(Step(), 6).
; 7
; -At(7).
; +At(8).
; Happens(Step(), 7).
; 8
; -At(8).
; +At(9).
; Happens(Step(), 8).
; 9
; -At(9).
; +At(10).
; Happens(Step(), 9).
; 10
; -At(10).
; +At(11).
; Happens(Step(), 10).
; 11
; -At(11).
; +At(12).
; Happens(Step(), 11).
; 12
; -At(12).
; +At(13).
; Happens(Step(), 12).
; 13
; -At(13).
; +At(14).
; Happens(Step(), 13).
; 14
; -At(14).
; +At(15).
; Happens(Step(), 14).
; 15
; -At(15).
; +At(16).
; Happens(Step(), 15).
; 16
; -At(16).
; +At(17).
; Happens(Step(), 16).
; 17
; -At(17).
; +At(18).
; Happens(Step(), 17).
; 18
; -At(18).
; +At(19).
; Happens(Step(), 18).
; 19
; -At(19).
; +At(20).
; Happens(Step(), 19).
; 20
; -At(20).
; +At(21).
; Happens(Step(), 20).
; 21
; -At(21).
; +At(22).
; 22
; P
; complete: 1
