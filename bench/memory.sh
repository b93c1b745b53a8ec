#!/usr/bin/env bash
# Runs the built program with its k-th allocation refused, alone and with all behind it, for k = 1, 2, .. until a run has none refused.
# Whatever is refused, a beginning of the right text is put or all of it, and so with each file that is written; and nothing is put
# before these files stand. Its word: the built program (else the one of this repository). It wants a C compiler.
set -eu
source "$(dirname "${BASH_SOURCE[0]}")/hostile.sh"
LC_ALL=C

cc -shared -fPIC -O2 -o refusing.so "$here/bench/refusing.c"

# The bytes of a file, in the variable that is named, without a process of its own.
read_bytes() {
    IFS= read -r -d '' "$1" <"$2" || true
}

# Sets the files that a command writes to an old text.
age() {
    local file
    for file in ${written[@]+"${written[@]}"}; do
        printf 'old\n' >"$file"
    done
}

# One run with so much refused: its status in `status`, what it put in `put`, whether something was refused in `refused`.
run_refusing() {
    local refusal=$1
    shift
    age
    status=0
    REFUSE=$refusal LD_PRELOAD=$folder/refusing.so "$program" "$@" >out 2>errors 9>bytes || status=$?
    read_bytes put out
    [ -s bytes ] && refused=yes || refused=no
}

# Whether each file that the command writes is whole; or else, whether it is whole, the old one, or a beginning.
files_stand() {
    local file bytes whole
    for file in ${written[@]+"${written[@]}"}; do
        read_bytes bytes "$file"
        read_bytes whole "right.$file"
        [ "$bytes" = "$whole" ] && continue
        [ "$1" = whole ] && return 1
        [ "$bytes" = $'old\n' ] || [ "${whole:0:${#bytes}}" = "$bytes" ] || return 1
    done
}

# What a run is counted as: with its own status all is as in a run with nothing refused; with 7 what was put is a beginning.
kind_of() {
    if [ -s errors ]; then
        kind=else
    elif [ "$status" -eq "$own" ] && [ "$put" = "$right" ] && files_stand whole; then
        kind=own
    elif [ "$status" -eq 7 ] && [ -z "$put" ] && files_stand partly; then
        kind=memory
    elif [ "$status" -eq 7 ] && [ "${right:0:${#put}}" = "$put" ] && files_stand whole; then
        kind=memory
    else
        kind=else
    fi
}

# One line of the table: a command's name, its own status and last line, the files that it writes, and its words. The run with
# nothing refused says what is right.
sweep() {
    local name=$1 own=$2 last=$3 right k how file
    local -a written
    read -r -a written <<<"$4"
    shift 4
    run_refusing none "$@"
    right=$put
    [ "$status" -eq "$own" ] && [ "$(tail -n 1 out)" = "$last" ] || fail "$name: status $status, $(tail -n 1 out)"
    for file in ${written[@]+"${written[@]}"}; do
        cp "$file" "right.$file"
    done
    for how in alone from; do
        local -A count=([memory]=0 [own]=0 [else]=0)
        for ((k = 1; ; k++)); do
            run_refusing "$how:$k" "$@"
            kind_of
            [ "$refused" = no ] && break
            count[$kind]=$((count[$kind] + 1))
            [ "$kind" = else ] && printf 'FAILED %s, %s %d: status %d, %d bytes put\n' "$name" "$how" "$k" "$status" "${#put}"
        done
        [ "$kind" = own ] || fail "$name: nothing refused, and yet status $status"
        [ "${count[else]}" -eq 0 ] || fail "$name: ${count[else]} runs"
        printf '%-10s %-6s %8d %9d %9d %14d\n' "$name" "$how" $((k - 1)) "${count[memory]}" "${count[own]}" "${count[else]}"
    done
}

# James is awake at time 1: two narratives.
woke() {
    printf '%s\n' \
        'load foundations/Root.e' \
        'load foundations/EC.e' \
        'sort agent' \
        'fluent Awake(agent)' \
        'event WakeUp(agent)' \
        '[agent,time] Initiates(WakeUp(agent),Awake(agent),time).' \
        'agent James' \
        '!HoldsAt(Awake(James),0).' \
        'HoldsAt(Awake(James),1).' \
        'range time 0 1' \
        'range offset 1 1'
}

woke >woke.e
printf '%s\n' 'model 1:' 0 'Happens(WakeUp(James), 0).' 1 '+Awake(James).' P \
    'model 2:' 0 'Happens(WakeUp(James), 0).' 1 '+Awake(James).' 'Happens(WakeUp(James), 1).' P 'complete: 2' >woke.list
printf '%s\n' 'log 1 6 9' 'b 48' 'b 4c' 'd 0 1 2 9 6 4 10 11 0' 'end complete: 2' >woke.log
printf 'load woke.e\nQ().\n' >wrong.e

printf '%-10s %-6s %8s %9s %9s %14s\n' command refused runs 'status 7' 'its own' 'anything else'
sweep list 0 'complete: 2' '' list woke.e
cmp -s out woke.list || fail 'list: another list than that by hand'
sweep solve 0 'complete: 2' solve.log solve woke.e solve.log
cmp -s out woke.list || fail 'solve: another list than that by hand'
sweep check 0 'complete: 2' '' check woke.e woke.list woke.log
sweep show 0 'clauses: 9' '' show woke.e
sweep refusal 2 'refused E09 wrong.e:2: Q' '' list wrong.e
if [ "$("$program" sample 2 | tail -n 1)" != usage ]; then
    sweep sample 0 'check: complete: 3' 'sample.e sample.log sample.out' sample 2
else
    echo 'not tried: sample, which this program does not know'
fi
finish
