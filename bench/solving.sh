#!/usr/bin/env bash
# Times `dec solve` and `dec show`: wall time, processor time and peak memory of one run each. It wants GNU time.
set -eu
source "$(dirname "${BASH_SOURCE[0]}")/measure.sh"

# One line: what was run, its times and memory, and the last line that it put.
measure() {
    local name=$1
    shift
    local used
    used=$( { /usr/bin/time -f '%e s  %U s  %M kB' "$here/dec" "$@" >"$folder/out" || true; } 2>&1 | tail -n 1)
    printf '%-24s %s  %s\n' "$name" "$used" "$(tail -n 1 "$folder/out")"
}

# So many steps, each of which needs the one before it, done one at a time.
steps() {
    local n=$1 k=$(($1 + 1))
    printf '%s\n' \
        'sort step: integer' \
        "range step 1 $n" \
        "range time 0 $k" \
        'fluent Done(step)' \
        'event Do(step)' \
        '[step,time] Initiates(Do(step),Done(step),time).' \
        '[step] !HoldsAt(Done(step),0).' \
        '[step,time] Happens(Do(step),time) -> !HoldsAt(Done(step),time).' \
        '[step,time] Happens(Do(step+1),time) -> HoldsAt(Done(step),time).' \
        '[event1,event2,time] Happens(event1,time) & Happens(event2,time) -> event1=event2.' \
        "[step] HoldsAt(Done(step),$k)."
}

# Thirteen coins, each tossed once: 8,192 narratives.
coins() {
    printf '%s\n' \
        'sort coin: integer' \
        'range coin 1 13' \
        'range time 0 1' \
        'fluent Heads(coin)' \
        'event Toss(coin)' \
        '[coin,time] Releases(Toss(coin),Heads(coin),time).' \
        'Delta: Happens(Toss(coin),0).' \
        'completion Delta Happens' \
        '!HoldsAt(Heads(coin),0).'
}

# A parcel is carried over a row of places, by a robot that goes from one to the next: one plan, of the least length.
delivery() {
    local places=$1 last=$((2 * $1))
    printf '%s\n' \
        'sort place: integer' \
        "range place 1 $places" \
        "range time 0 $last" \
        'fluent RobotAt(place)' \
        'fluent ParcelAt(place)' \
        'fluent Holding()' \
        'event Forward()' \
        'event Back()' \
        'event Grasp()' \
        'event Release()' \
        'HoldsAt(RobotAt(place),time) -> Initiates(Forward(),RobotAt(place+1),time).' \
        'HoldsAt(RobotAt(place),time) -> Terminates(Forward(),RobotAt(place),time).' \
        'HoldsAt(RobotAt(place+1),time) -> Initiates(Back(),RobotAt(place),time).' \
        'HoldsAt(RobotAt(place),time) -> Terminates(Back(),RobotAt(place),time).' \
        'HoldsAt(RobotAt(place),time) & HoldsAt(ParcelAt(place),time) -> Initiates(Grasp(),Holding(),time).' \
        'HoldsAt(RobotAt(place),time) & HoldsAt(ParcelAt(place),time) -> Terminates(Grasp(),ParcelAt(place),time).' \
        'HoldsAt(Holding(),time) & HoldsAt(RobotAt(place),time) -> Initiates(Release(),ParcelAt(place),time).' \
        'Terminates(Release(),Holding(),time).' \
        'Happens(event1,time) & Happens(event2,time) -> event1=event2.' \
        'HoldsAt(RobotAt(place),0) <-> place=1.' \
        "HoldsAt(ParcelAt(place),0) <-> place=$places." \
        '!HoldsAt(Holding(),0).' \
        "HoldsAt(ParcelAt(1),$last)." \
        "!Happens(event,$last)."
}

# A robot goes along a corridor, with one time to spare: a narrative for each time at which it may stand still.
corridor() {
    local cells=$1 last=$1
    printf '%s\n' \
        'sort cell: integer' \
        "range cell 1 $cells" \
        "range time 0 $last" \
        'fluent At(cell)' \
        'event Step()' \
        'HoldsAt(At(cell),time) -> Initiates(Step(),At(cell+1),time).' \
        'HoldsAt(At(cell),time) -> Terminates(Step(),At(cell),time).' \
        'HoldsAt(At(cell),0) <-> cell=1.' \
        "HoldsAt(At($cells),$last)." \
        "!Happens(Step(),$last)."
}

# One more pigeon than holes.
pigeons() {
    local holes=$1
    printf '%s\n' \
        'sort pigeon: integer' \
        'sort hole: integer' \
        "range pigeon 1 $((holes + 1))" \
        "range hole 1 $holes" \
        'predicate In(pigeon,hole)' \
        '{hole} In(pigeon,hole).' \
        'In(pigeon1,hole) & In(pigeon2,hole) -> pigeon1=pigeon2.'
}

# So many constants, and sentences about all of them.
constants() {
    awk -v constants="$1" 'BEGIN {
        printf "sort a\npredicate P(a)\npredicate Q(a)\na C0"
        for (i = 1; i < constants; i++) printf ",C%d", i
        printf "\n[a] P(a) -> Q(a).\n[a] Q(a).\n[a] P(a).\n"
    }'
}

for n in 10 20 30 40; do
    steps "$n" >"$folder/steps$n"
done
for n in 5000 20000; do
    constants "$n" >"$folder/constants$n"
done
coins >"$folder/coins"
for n in 10 14; do
    delivery "$n" >"$folder/delivery$n"
done
corridor 34 >"$folder/corridor"
pigeons 7 >"$folder/pigeons"

for n in 20 40; do
    measure "show, $n steps" show "$folder/steps$n"
done
for n in 5000 20000; do
    measure "show, $n constants" show "$folder/constants$n"
done
for n in 10 20 30 40; do
    measure "solve, $n steps" solve "$folder/steps$n" "$folder/log"
done
measure "solve, 13 coins" solve "$folder/coins" "$folder/log" --models 10000
measure "solve, a corridor" solve "$folder/corridor" "$folder/log"
for n in 10 14; do
    measure "solve, $n places" solve "$folder/delivery$n" "$folder/log"
done
measure "solve, 8 pigeons" solve "$folder/pigeons" "$folder/log"
