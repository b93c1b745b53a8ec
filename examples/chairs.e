; An impossible case: five guests and four chairs. Can each guest have a chair of his own?
;
; No narrative is left, so they can't. The log says why: anybody can check it.

sort guest: integer
sort chair: integer
range guest 1 5
range chair 1 4

predicate Has(guest,chair)

{chair} Has(guest,chair).
Has(guest1,chair) & Has(guest2,chair) -> guest1=guest2.

; complete: 0
