; Planning: Nathan is in the bedroom and is to be in the kitchen at time 1. How can he do it?
;
; Each narrative is a plan. Nobody is in two rooms at once, nobody walks to the room that he is in,
; and nothing happens at the last time. One plan is left.

load foundations/Root.e
load foundations/EC.e

sort agent
sort room
agent Nathan
room Bedroom, Kitchen

fluent InRoom(agent,room)
event Walk(agent,room)

[agent,room1,room2,time] HoldsAt(InRoom(agent,room1),time) & HoldsAt(InRoom(agent,room2),time) -> room1=room2.

[agent,room,time] Initiates(Walk(agent,room),InRoom(agent,room),time).
[agent,room1,room2,time] HoldsAt(InRoom(agent,room1),time) & room1!=room2 -> Terminates(Walk(agent,room2),InRoom(agent,room1),time).

[agent,room,time] Happens(Walk(agent,room),time) -> !HoldsAt(InRoom(agent,room),time).

HoldsAt(InRoom(Nathan,Bedroom),0).
HoldsAt(InRoom(Nathan,Kitchen),1).
!Happens(event,1).

range time 0 1
range offset 1 1

; model 1:
; 0
; InRoom(Nathan, Bedroom).
; Happens(Walk(Nathan, Kitchen), 0).
; 1
; -InRoom(Nathan, Bedroom).
; +InRoom(Nathan, Kitchen).
; P
; complete: 1
