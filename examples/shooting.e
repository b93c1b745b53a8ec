; Deduction: the gun is loaded and is fired at time 0. Does the turkey live on?
;
; To ask whether something follows, say its opposite and list. The last sentence says that the
; turkey is alive at time 1; no narrative is left, so in every case it is dead then.

fluent Loaded()
fluent Alive()
event Shoot()

[time] HoldsAt(Loaded(),time) -> Terminates(Shoot(),Alive(),time).
[time] Terminates(Shoot(),Loaded(),time).

HoldsAt(Loaded(),0).
HoldsAt(Alive(),0).

Delta: Happens(Shoot(),0).
completion Delta Happens

HoldsAt(Alive(),1).      ; the opposite of what is to follow

range time 0 1

; complete: 0
