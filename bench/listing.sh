#!/usr/bin/env bash
# Times `dec list` on files of 16 visible atoms, where each of 65,536 truths is tried.
set -eu
source "$(dirname "${BASH_SOURCE[0]}")/measure.sh"

# One line: the file, the least processor time of three runs, and the last line of the list.
measure() {
    local seconds
    seconds=$(least_time 3 "$1")
    printf '%-12s %6.3f s  %s\n' "$1" "$seconds" "$(tail -n 1 "$folder/out")"
}

# A fluent, two events, four times: what may have happened.
cat >"$folder/light" <<'END'
fluent On()
event Press()
event Break()
[time] !HoldsAt(On(),time) -> Initiates(Press(),On(),time).
[time] HoldsAt(On(),time) -> Terminates(Press(),On(),time).
[time] Terminates(Break(),On(),time).
!(Happens(Press(),time) & Happens(Break(),time)).
!HoldsAt(On(),0).
range time 0 3
END

# Four fluents, eight events, one time: 96 effect atoms, each supported under a condition.
cat >"$folder/effects" <<'END'
sort number: integer
range number 1 8
sort lamp
lamp A, B, C, D
fluent On(lamp)
event Press(number)
[number,lamp,time] HoldsAt(On(lamp),time) -> Terminates(Press(number),On(lamp),time).
[number,lamp,time] !HoldsAt(On(lamp),time) -> Initiates(Press(number),On(lamp),time).
[number,lamp,time] Releases(Press(number),On(lamp),time).
range time 0 0
END

# Sixteen predicates, a formula over all of them.
cat >"$folder/predicates" <<'END'
predicate A,B,C,D,E,F,G,H,I,J,K,L,M,N,O,Q
A & B -> C | D.
E <-> F & !G.
H -> I. I -> J. J -> K.
L & M & N -> !O.
Q <-> A.
END
for file in light effects predicates; do
    measure "$file"
done
