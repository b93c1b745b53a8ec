#!/usr/bin/env bash
# Runs the built program while the system fails it: its output, its files, a full disk, signals. Each line tells the situation, the
# status, what was put and what LOG holds. A line fails where it is otherwise than docs/COMMANDS.md says: so no list may be put before
# LOG has the whole log, and an old LOG may be lost only where a log is written over it. Its word: the built program (else the one
# of this repository). It is meant for root, who may mount a small disk, and it runs the program as somebody else where that matters.
set -eu
source "$(dirname "${BASH_SOURCE[0]}")/hostile.sh"
LC_ALL=C
chmod 755 "$folder"
cp "$program" dec

if [ "$(id -u)" -eq 0 ]; then
    other_user=(setpriv --reuid=65534 --regid=65534 --clear-groups)
else
    other_user=()
fi

# The program, for so many seconds at most; the status 124 is that of a run which waits for longer.
dec() {
    timeout "$patience" "$folder/dec" "$@"
}

# The same as a user to whom the folder belongs and who isn't root.
dec_of_user() {
    [ "$(id -u)" -ne 0 ] || chown -h 65534:65534 . ./*
    timeout "$patience" "${other_user[@]}" "$folder/dec" "$@"
}

# James is awake at time 1: two narratives.
woke() {
    printf '%s\n' \
        'sort agent' \
        'fluent Awake(agent)' \
        'event WakeUp(agent)' \
        '[agent,time] Initiates(WakeUp(agent),Awake(agent),time).' \
        'agent James' \
        '!HoldsAt(Awake(James),0).' \
        'HoldsAt(Awake(James),1).' \
        'range time 0 1'
}

# Each of so many coins is tossed once: a narrative for each outcome.
coins() {
    printf '%s\n' \
        'sort coin: integer' \
        "range coin 1 $1" \
        'range time 0 1' \
        'fluent Heads(coin)' \
        'event Toss(coin)' \
        '[coin,time] Releases(Toss(coin),Heads(coin),time).' \
        'Delta: Happens(Toss(coin),0).' \
        'completion Delta Happens' \
        '!HoldsAt(Heads(coin),0).'
}

# Twelve pigeons and eleven holes: impossible, which takes a search of minutes.
pigeons() {
    printf '%s\n' \
        'sort pigeon: integer' \
        'sort hole: integer' \
        'range pigeon 1 12' \
        'range hole 1 11' \
        'predicate In(pigeon,hole)' \
        '{hole} In(pigeon,hole).' \
        'In(pigeon1,hole) & In(pigeon2,hole) -> pigeon1=pigeon2.'
}

# A sentence that is nested as deeply as may be.
deep() {
    printf 'predicate P()\n%s!!!P()%s.\n' "$(printf '!!!(%.0s' {1..99})" "$(printf ')%.0s' {1..99})"
}

# A file with the list and the log that `solve` makes of it where nothing fails.
prepare() {
    mkdir "$1"
    "${@:2}" >"$1/t.e"
    (cd "$1" && "$folder/dec" solve t.e g --models 10000 >o)
}

# A new folder for the next situation: the file `t.e`, its list `o`, its log `g`, and an old LOG `l`.
fresh() {
    cd "$folder"
    rm -rf now
    cp -r "${1:-woke}" now
    cp now/o now/g .
    cd now
    echo old >l
    log=l
    patience=20
}

# What a name holds, beside the text that would be whole.
holding() {
    if [ -d "$1" ]; then
        echo 'a folder'
    elif [ -p "$1" ]; then
        echo 'a pipe'
    elif [ ! -e "$1" ]; then
        echo 'not there'
    elif [ ! -s "$1" ]; then
        echo nothing
    elif cmp -s "$1" "$2"; then
        echo whole
    elif cmp -s "$1" "$folder/o"; then
        echo 'the list'
    elif cmp -s -n "$(stat -c %s "$1")" "$1" "$2"; then
        echo 'a beginning'
    elif [ "$(wc -l <"$1")" -eq 1 ]; then
        cat "$1"
    else
        echo 'something else'
    fi
}

# One line: a situation; the status, what is put and what LOG holds that are wanted; and the run.
expect() {
    local name=$1 wanted="$2, $3, $4" status=0 put held
    shift 4
    "$@" >"$folder/put" 2>"$folder/errors" || status=$?
    put=$(holding "$folder/put" "$folder/o")
    held=$(holding "$log" "$folder/g")
    printf '%-60s %5s  %-34s %s\n' "$name" "${status/#124/waits}" "$put" "$held"
    [ "$status, $put, $held" = "$wanted" ] || fail "$name: wanted: $wanted"
    [ ! -s "$folder/errors" ] || fail "$name: standard error: $(head -n 1 "$folder/errors")"
}

with_output_closed() {
    dec "$@" >&-
}

with_all_three_closed() {
    dec "$@" <&- >&- 2>&-
}

with_output_full() {
    dec "$@" >/dev/full
}

# The reader has gone before the first byte.
with_no_reader() {
    local ended=0
    mkfifo reader
    exec 7<>reader 8>reader 7>&-
    dec "$@" >&8 || ended=$?
    exec 8>&-
    return $ended
}

# The reader goes after the first line.
with_one_line_read() {
    local -a ended
    dec "$@" | head -n 1
    ended=("${PIPESTATUS[@]}")
    return "${ended[0]}"
}

outputs() {
    local run
    for run in with_output_closed with_all_three_closed with_output_full with_no_reader; do
        fresh
        expect "list, ${run//_/ }" 5 nothing old $run list t.e
        fresh
        expect "check, ${run//_/ }" 5 nothing old $run check t.e o g
        fresh
        expect "a refusal, ${run//_/ }" 5 nothing old $run solve nowhere.e l
        fresh
        expect "solve, ${run//_/ }" 5 nothing whole $run solve t.e l
    done
    fresh coins10
    expect 'solve, with one line read' 5 'a beginning' whole with_one_line_read solve t.e l --models 10000
}

# What may lie in the place of a file.
a_folder() {
    rm "$1"
    mkdir "$1"
}

an_unreadable_file() {
    chmod 0 "$1"
}

# Somebody writes to the pipe what the file held.
a_pipe() {
    mv "$1" "$1.kept"
    mkfifo "$1"
    cat "$1.kept" >"$1" 2>/dev/null &
    writer=$!
}

a_pipe_without_a_writer() {
    rm "$1"
    mkfifo "$1"
}

# A thing in the place of a name; what the name stands for; the status that is wanted, and the words.
misplaced() {
    local thing=$1 name=$2 place=$3 status=$4 run=dec writer=
    shift 4
    fresh
    echo 'load t.e' >loading.e
    $thing "$name"
    case $thing in
        an_unreadable_file) run=dec_of_user ;;
        a_pipe_without_a_writer) patience=2 ;;
    esac
    expect "$1, ${thing//_/ } as $place" "$status" nothing old $run "$@"
    if [ -n "$writer" ]; then
        kill "$writer" 2>/dev/null || true
        wait "$writer" 2>/dev/null || true
    fi
}

reading() {
    local thing status=4
    for thing in a_folder an_unreadable_file a_pipe a_pipe_without_a_writer; do
        [ $thing = a_pipe_without_a_writer ] && status=124
        misplaced $thing t.e FILE $status list t.e
        misplaced $thing t.e FILE $status solve t.e l
        misplaced $thing t.e FILE $status check t.e o g
        misplaced $thing t.e 'a file that is loaded' $status solve loading.e l
        misplaced $thing o OUT $status check t.e o g
        misplaced $thing g LOG $status check t.e o g
    done
}

names() {
    fresh
    ln -s nowhere nothing.e
    ln -s loop.e loop.e
    expect 'solve, FILE is not there' 2 'refused E01 n.e:0: n.e' old dec solve n.e l
    expect 'solve, FILE is an empty word' 2 'refused E01 :0: ' old dec solve '' l
    expect 'solve, FILE is a link to nothing' 2 'refused E01 nothing.e:0: nothing.e' old dec solve nothing.e l
    expect 'solve, FILE is a link to itself' 4 nothing old dec solve loop.e l
    expect 'solve, FILE lies in a file' 4 nothing old dec solve t.e/n.e l
    expect 'solve, FILE has a name of 256 letters' 4 nothing old dec solve "$(printf 'n%.0s' {1..256})" l
    expect 'solve, FILE has no end' 2 'refused E03 /dev/zero:0: /dev/zero' old dec solve /dev/zero l
    expect 'solve, FILE is /dev/null' 0 whole whole of_nothing
    fresh
    expect 'check, OUT is not there' 2 'refused E01 n:0: n' old dec check t.e n g
    expect 'check, OUT has no end' 3 'no list line 1' old dec check t.e /dev/zero g
    expect 'check, LOG is not there' 2 'refused E01 n:0: n' old dec check t.e o n
    expect 'check, LOG has no end' 3 'no log line 1' old dec check t.e o /dev/zero
    expect 'check, FILE, OUT and LOG are one' 3 'no list line 1' old dec check t.e t.e t.e
    expect 'words that are no job' 6 usage old dec solve t.e
    expect 'a word that is no text' 8 nothing old dec solve $'\xff' l
}

# An empty file has one narrative, in which nothing is said.
of_nothing() {
    printf '%s\n' 'model 1:' P 'complete: 1' >"$folder/o"
    printf '%s\n' 'log 1 0 0' 'b ' 'd 0 1 0' 'end complete: 1' >"$folder/g"
    dec solve /dev/null l
}

# The folder of LOG, of which the user may not use what the mode takes away.
in_a_folder_of_mode() {
    mkdir closed
    echo old >closed/l
    chmod "$1" closed
    dec_of_user solve t.e "$2"
}

over_a_read_only_file() {
    chmod 444 l
    dec_of_user solve t.e l
}

# The reader of the pipe stays until the run has ended.
into_a_pipe() {
    local ended=0
    mkfifo pipe
    exec 7<>pipe
    dec solve t.e pipe || ended=$?
    timeout 1 cat <&7 >read || true
    exec 7>&-
    return $ended
}

# LOG is taken away while it is written.
taken_away() {
    dec solve t.e l --models 10000 &
    until [ "$(stat -c %s l)" -gt 1000 ]; do :; done
    rm l
    wait $!
}

# The system grants no more than so many kibibytes: by -f in a file, by -s of stack, by -v of memory in all. Where it ends the run by
# a signal, the shell tells that on standard error.
with_a_limit() (
    local ended=0
    ulimit "$1" "$2"
    "$folder/dec" "${@:3}" || ended=$?
    return $ended
) 2>/dev/null

# Another run writes LOG while this one stands still in the middle of it.
written_by_two() {
    local pid
    "$folder/dec" solve t.e l --models 10000 &
    pid=$!
    until [ "$(stat -c %s l)" -gt 1000 ]; do :; done
    kill -s STOP "$pid"
    dec solve t.e l --models 10000 >other_list
    kill -s CONT "$pid"
    wait "$pid"
}

writing() {
    fresh
    a_folder l
    expect 'solve, a folder as LOG' 4 nothing 'a folder' dec solve t.e l
    fresh
    expect 'solve, LOG is an empty word' 4 nothing old dec solve t.e ''
    expect 'solve, LOG may not be written' 4 nothing old over_a_read_only_file
    fresh
    log=n/l
    expect 'solve, no folder for LOG' 4 nothing 'not there' dec solve t.e n/l
    log=t.e/l
    expect 'solve, a file in the place of the folder of LOG' 4 nothing 'not there' dec solve t.e t.e/l
    mkfifo pipe
    log=pipe/l
    expect 'solve, a pipe in the place of the folder of LOG' 4 nothing 'not there' dec solve t.e pipe/l
    fresh
    log=closed/new
    expect 'solve, nothing may be made in the folder of LOG' 4 nothing 'not there' in_a_folder_of_mode 555 closed/new
    fresh
    log=closed/l
    expect 'solve, nothing may be found in the folder of LOG' 4 nothing old in_a_folder_of_mode 0 closed/l
    fresh
    mkfifo pipe
    log=pipe
    patience=2
    expect 'solve, a pipe without a reader as LOG' 124 nothing 'a pipe' dec solve t.e pipe
    fresh
    log=read
    expect 'solve, a pipe as LOG, read to the end' 0 whole whole into_a_pipe
    log=/dev/full
    expect 'solve, LOG is /dev/full' 4 nothing nothing dec solve t.e /dev/full
    log=/dev/null
    expect 'solve, LOG is /dev/null, which keeps nothing' 0 whole nothing dec solve t.e /dev/null
    fresh coins13
    expect 'solve, LOG is taken away while it is written' 4 nothing 'not there' taken_away
    fresh coins13
    expect 'solve, another run writes LOG meanwhile: the log is lost' 0 whole 'something else' written_by_two
    cp l g
    echo old >l
    expect 'check, of that list and that log' 3 "no log line $(($(wc -l <"$folder/g") + 1))" old dec check t.e o g
    fresh coins10
    expect 'solve, LOG passes the size that files may have' 153 nothing 'a beginning' with_a_limit -f 1 solve t.e l --models 10000
}

# Other names for FILE, which are told apart by the words alone.
other_names() {
    fresh
    expect 'solve, LOG is FILE' 2 'refused E24 t.e:0: t.e' old dec solve t.e t.e
    log=t.e
    expect 'solve, LOG is FILE, spelled ./t.e: FILE is lost' 0 whole whole dec solve t.e ./t.e
    fresh
    ln -s t.e other
    log=t.e
    expect 'solve, LOG is a link to FILE: FILE is lost' 0 whole whole dec solve t.e other
    fresh
    ln t.e other
    log=t.e
    expect 'solve, LOG is a hard link to FILE: FILE is lost' 0 whole whole dec solve t.e other
    fresh
    expect 'solve, the list is put into LOG: the log is lost' 0 whole 'the list' into_log
}

into_log() {
    dec solve t.e l >l
    cat l
}

# A disk of 16 KiB with an old LOG, all of it taken but so many KiB. What lies on it in the end is kept.
on_a_disk() {
    local ended=0
    mkdir disk kept
    mount -t tmpfs -o size=16k,mode=777 tmpfs disk
    cp l disk
    head -c $((12288 - $1 * 1024)) /dev/zero >disk/taken
    shift
    "$@" || ended=$?
    rm disk/taken
    cp disk/* kept
    umount disk
    return $ended
}

put_on_disk() {
    dec "$@" >disk/list
}

read_only() {
    mount -o remount,ro disk
    local ended=0
    dec "$@" || ended=$?
    mount -o remount,rw disk
    return $ended
}

disks() {
    mkdir "$folder/disk"
    if ! mount -t tmpfs -o size=16k tmpfs "$folder/disk" 2>/dev/null; then
        echo 'not tried: a full disk, since none can be mounted here'
        return
    fi
    umount "$folder/disk"
    fresh coins10
    log=kept/new
    expect 'solve, the disk is full' 4 nothing nothing on_a_disk 0 dec solve t.e disk/new --models 10000
    fresh coins10
    log=kept/l
    expect 'solve, the disk is full but for the old LOG' 4 nothing 'a beginning' on_a_disk 0 dec solve t.e disk/l --models 10000
    fresh coins10
    log=kept/new
    expect 'solve, the disk becomes full' 4 nothing 'a beginning' on_a_disk 8 dec solve t.e disk/new --models 10000
    fresh
    log=kept/l
    expect 'solve, the disk may only be read' 4 nothing old on_a_disk 8 read_only solve t.e disk/l
    fresh coins10
    expect 'solve, the list goes to a disk that becomes full' 5 nothing whole on_a_disk 8 put_on_disk solve t.e l --models 10000
    [ "$(holding kept/list "$folder/o")" = 'a beginning' ] || fail 'the list on the full disk is no beginning'
}

limits() {
    fresh coins13
    expect 'solve, 8,000 KiB of memory where 14,000 are needed' 7 nothing old with_a_limit -v 8000 solve t.e l --models 10000
    fresh deep
    expect 'solve, the deepest sentence, with a stack of 8,192 KiB' 0 whole whole with_a_limit -s 8192 solve t.e l
    fresh deep
    expect 'solve, the deepest sentence, with a stack of 256 KiB' 139 nothing old with_a_limit -s 256 solve t.e l
}

# Sends the signal to a run, and ends as it does.
end_with() {
    kill -s "$1" "$2"
    wait "$2" 2>/dev/null
}

while_searching() {
    "$folder/dec" solve t.e l --conflicts 2000000000 &
    sleep 1
    end_with "$1" $!
}

while_writing() {
    "$folder/dec" solve t.e l --models 10000 &
    until [ "$(stat -c %s l)" -gt 1000 ]; do :; done
    end_with "$1" $!
}

# Nobody reads on, so the run waits with a part of its list put.
while_putting() {
    local ended=0
    mkfifo reader
    exec 7<>reader
    "$folder/dec" solve t.e l --models 10000 >&7 &
    until [ "$(tail -n 1 l)" = 'end complete: 8192' ]; do sleep 0.1; done
    sleep 0.5
    end_with "$1" $! || ended=$?
    timeout 1 cat <&7 || true
    exec 7>&-
    return $ended
}

signals() {
    local signal status
    for signal in TERM KILL; do
        status=$((128 + $(kill -l $signal)))
        fresh pigeons
        expect "solve, $signal while it searches" $status nothing old while_searching $signal
        fresh coins13
        expect "solve, $signal while it writes LOG" $status nothing 'a beginning' while_writing $signal
        fresh coins13
        expect "solve, $signal while it puts the list" $status 'a beginning' whole while_putting $signal
    done
}

prepare woke woke
prepare deep deep
prepare coins10 coins 10
prepare coins13 coins 13
mkdir pigeons
pigeons >pigeons/t.e
printf 'complete: 0\n' >pigeons/o
printf 'the log of a long search\n' >pigeons/g

printf '%-60s %5s  %-34s %s\n' situation status put LOG
outputs
reading
names
writing
other_names
disks
limits
signals
finish
