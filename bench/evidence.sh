#!/usr/bin/env bash
# Times `dec check` beside the `dec solve` that wrote what it checks: seconds of the processor of each, the least of so many runs, and their
# ratio. Words: the built program (else the one of this repository), and the number of runs (3).
set -eu
here=$(cd "$(dirname "${BASH_SOURCE[0]}")/.." && pwd)
program=${1:-$here/crates/dec/out/dec}
runs=${2:-3}
folder=$(mktemp -d)
trap 'rm -rf "$folder"' EXIT

# The seconds of the processor that a command took, in its own code and in the system's. What it put stands in the file `put`.
seconds() {
    local TIMEFORMAT='%U %S'
    { time "$@" >"$folder/put" 2>/dev/null || true; } 2>&1 | awk '{ printf "%.3f\n", $1 + $2 }'
}

# The least of so many runs.
least() {
    local run
    for ((run = 0; run < runs; run++)); do
        seconds "$@"
    done | sort -n | head -n 1
}

# One line: the file's name, the narratives and derived clauses, the seconds of both, their ratio, and what the check put.
measure() {
    local name=$1 file=$folder/$1 solve check
    shift
    solve=$(least "$program" solve "$file" "$folder/log" "$@")
    cp "$folder/put" "$folder/list"
    check=$(least "$program" check "$file" "$folder/list" "$folder/log")
    awk -v name="$name" -v models="$(grep -c '^b' "$folder/log")" -v derived="$(grep -c '^d' "$folder/log")" \
        -v solve="$solve" -v check="$check" -v put="$(head -n 1 "$folder/put")" 'BEGIN {
        ratio = solve > 0 ? sprintf("%.2f", check / solve) : "-"
        printf "%-12s %6d narratives %6d derived  solve %7.3f s  check %7.3f s  ratio %s  %s\n",
            name, models, derived, solve, check, ratio, put
    }'
}

# So many steps, each of which needs the one before it, done one at a time, with a time to spare.
steps() {
    local n=$1 k=$(($1 + 1))
    printf '%s\n' \
        'sort step: integer' \
        "range step 1 $n" \
        "range time 0 $k" \
        'fluent Done(step)' \
        'event Do(step)' \
        '[step,time] Initiates(Do(step),Done(step),time).' \
        '[step] !HoldsAt(Done(step),0).' \
        '[step,time] Happens(Do(step),time) -> !HoldsAt(Done(step),time).' \
        '[step,time] Happens(Do(step+1),time) -> HoldsAt(Done(step),time).' \
        '[event1,event2,time] Happens(event1,time) & Happens(event2,time) -> event1=event2.' \
        "[step] HoldsAt(Done(step),$k)."
}

# A robot goes along a corridor of so many cells, with two times to spare: a narrative for each two times at which it may stand still.
corridor() {
    local cells=$1 last=$(($1 + 1))
    printf '%s\n' \
        'sort cell: integer' \
        "range cell 1 $cells" \
        "range time 0 $last" \
        'fluent At(cell)' \
        'event Step()' \
        'HoldsAt(At(cell),time) -> Initiates(Step(),At(cell+1),time).' \
        'HoldsAt(At(cell),time) -> Terminates(Step(),At(cell),time).' \
        'HoldsAt(At(cell),0) <-> cell=1.' \
        "HoldsAt(At($cells),$last)." \
        "!Happens(Step(),$last)."
}

# Each of so many coins is tossed once.
coins() {
    printf '%s\n' \
        'sort coin: integer' \
        "range coin 1 $1" \
        'range time 0 1' \
        'fluent Heads(coin)' \
        'event Toss(coin)' \
        '[coin,time] Releases(Toss(coin),Heads(coin),time).' \
        'Delta: Happens(Toss(coin),0).' \
        'completion Delta Happens' \
        '!HoldsAt(Heads(coin),0).'
}

# So many pigeons, and one hole less.
pigeons() {
    printf '%s\n' \
        'sort pigeon: integer' \
        'sort hole: integer' \
        "range pigeon 1 $1" \
        "range hole 1 $(($1 - 1))" \
        'predicate In(pigeon,hole)' \
        '{hole} In(pigeon,hole).' \
        'In(pigeon1,hole) & In(pigeon2,hole) -> pigeon1=pigeon2.'
}

steps 40 >"$folder/steps40"
corridor 45 >"$folder/corridor45"
coins 13 >"$folder/coins13"
for n in 8 9 10; do
    pigeons "$n" >"$folder/pigeons$n"
done

measure steps40
measure corridor45 --models 10000
measure coins13 --models 10000
for n in 8 9 10; do
    measure "pigeons$n"
done
