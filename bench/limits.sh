#!/usr/bin/env bash
# Runs the built program at the end of each of its sizes, from both sides, and says where it answers otherwise than it should.
# The sizes of OUT and LOG want half a gigabyte in /tmp. Its word: the built program (else the one of this repository).
set -eu
source "$(dirname "${BASH_SOURCE[0]}")/hostile.sh"

# A name, the status and the last line that are wanted, and the words of the run.
expect() {
    local name=$1 wanted=$2 line=$3 status=0 last start end
    shift 3
    start=$(date +%s%N)
    timeout 300 "$program" "$@" >put 2>errors || status=$?
    end=$(date +%s%N)
    last=$(tail -n 1 put)
    printf '%-52s %3d  %-34s %6d ms\n' "$name" "$status" "$last" $(((end - start) / 1000000))
    [ "$status" -eq "$wanted" ] || fail "$name: status $wanted was wanted"
    [ "$last" = "$line" ] || fail "$name: wanted as the last line: $line"
    [ ! -s errors ] || fail "$name: something went to standard error"
}

# So many blanks.
blanks() {
    head -c "$1" /dev/zero | tr '\0' ' '
}

# The text so many times, with the number in the place of {}; the last word parts them.
numbered() {
    awk -v text="$1" -v times="$2" -v part="${3-}" 'BEGIN {
        for (i = 1; i <= times; i++) { line = text; gsub(/[{][}]/, i, line); printf "%s%s", (i > 1 ? part : ""), line }
    }'
}

# A file whose predicate is about so many numbers, and true of all.
numbers() {
    printf 'sort big: integer\nrange big 1 %d\npredicate P(big)\nP(big).\n' "$1"
}

files_and_names() {
    blanks 1048576 >t.e
    expect 'a file of 1,048,576 bytes' 0 'complete: 1' list t.e
    blanks 1048577 >t.e
    expect 'a file of 1,048,577 bytes' 2 'refused E03 t.e:0: t.e' list t.e
    for ((i = 1; i <= 64; i++)); do : >"f$i.e"; done
    numbered 'load f{}.e\n' 63 >t.e
    expect '64 files' 0 'complete: 1' list t.e
    numbered 'load f{}.e\n' 64 >t.e
    expect '65 files' 2 'refused E04 t.e:64: f64.e' list t.e
    echo 'range time 0 511' >t.e
    expect '512 times' 0 'complete: 1' list t.e
    echo 'range time 0 512' >t.e
    expect '513 times' 2 'refused E08 t.e:1: time' list t.e
}

sentences() {
    printf 'sort a\npredicate P()\n[%s] P().\n' "$(numbered 'a{}' 16 ,)" >t.e
    expect '16 binders' 0 'complete: 2' list t.e
    printf 'sort a\npredicate P()\n[%s] P().\n' "$(numbered 'a{}' 17 ,)" >t.e
    expect '17 binders' 2 'refused E15 t.e:3: binders' list t.e
    printf 'predicate P()\n%sP()%s.\n' "$(numbered '(' 99)" "$(numbered ')' 99)" >t.e
    expect '100 open parentheses' 0 'complete: 1' list t.e
    printf 'predicate P()\n%sP()%s.\n' "$(numbered '(' 100)" "$(numbered ')' 100)" >t.e
    expect '101 open parentheses' 2 'refused E15 t.e:2: depth' list t.e
    printf 'predicate P()\n%sP().\n' "$(numbered '!' 300)" >t.e
    expect '300 signs for not' 0 'complete: 1' list t.e
    printf 'predicate P()\n%sP().\n' "$(numbered '!' 301)" >t.e
    expect '301 signs for not' 2 'refused E15 t.e:2: depth' list t.e
}

atoms() {
    numbers 16 >t.e
    expect '16 visible atoms, each truth tried' 0 'complete: 1' list t.e
    numbers 17 >t.e
    expect '17 visible atoms, each truth tried' 2 'refused E21 t.e:0: atoms' list t.e
    numbers 262144 >t.e
    expect '262,144 visible atoms, 1,024 models: 2^28' 0 'complete: 1' solve t.e l --models 1024
    expect '262,144 visible atoms, 1,025 models' 2 'refused E23 t.e:0: models' solve t.e l --models 1025
    numbers 262145 >t.e
    expect '262,145 visible atoms' 2 'refused E20 t.e:0: atoms' solve t.e l
    numbers 26843 >t.e
    expect '26,843 visible atoms, 10,000 models' 0 'complete: 1' solve t.e l --models 10000
    numbers 26844 >t.e
    expect '26,844 visible atoms, 10,000 models' 2 'refused E23 t.e:0: models' solve t.e l --models 10000
}

# The axioms weigh 8 where there is no fluent; the pairs 1 + 1154 * (1 + 1154 * 3) = 3,996,303; the units 1 + 3,688. There is a clause
# for each pair of two numbers, 1154 * 1153 = 1,330,562, and for each unit.
weighing() {
    printf '%s\n' 'sort big: integer' 'range big 1 1154' 'predicate P(big)' 'P(big1) -> P(big2).' \
        'sort unit: integer' "range unit 1 $1" 'predicate Q(unit)' 'Q(unit).'
}

weight() {
    weighing 3688 >t.e
    expect 'a weight of 4,000,000' 0 'complete: 2' solve t.e l
    expect 'that weight, as it is shown' 0 'clauses: 1334250' show t.e
    [ "$(sed -n 3p put)" = 'weight: 4000000' ] || fail 'the weight that is shown'
    weighing 3689 >t.e
    expect 'a weight of 4,000,001' 2 'refused E19 t.e:0: weight' solve t.e l
}

# So many constants of a sort, each with so many letters and digits.
constants() {
    awk -v sort="$1" -v first="$2" -v count="$3" -v length_="$4" 'BEGIN {
        for (i = first; i < first + count; i++) {
            name = sprintf("%s%d", toupper(sort), i)
            while (length(name) < length_) name = name "x"
            printf "%s %s\n", sort, name
        }
    }'
}

# A file of one narrative, in which P holds of 511 * 511 pairs of names of 124 letters, and Q of 499 names of 1,041 letters and of
# one more, with so many letters: with 1,027 its list has 67,108,864 bytes.
wide() {
    printf '%s\n' 'sort a' 'sort b' 'predicate P(a,a)' 'predicate Q(b)' 'P(a1,a2).' 'Q(b).'
    constants a 0 511 124
    constants b 0 499 1041
    constants b 499 1 "$1"
}

# Its list, by its own names.
wide_list() {
    printf 'model 1:\nP\n'
    awk '/^a / { name[n++] = $2 } /^b / { other[m++] = $2 } END {
        for (i = 0; i < n; i++) for (j = 0; j < n; j++) printf "P(%s, %s).\n", name[i], name[j]
        for (i = 0; i < m; i++) printf "Q(%s).\n", other[i]
    }' "$1"
    echo 'complete: 1'
}

lists() {
    wide 1027 >t.e
    expect 'a search whose list has 67,108,864 bytes' 0 'complete: 1' solve t.e l
    wide_list t.e >o
    cmp -s put o || fail 'the list of 67,108,864 bytes'
    [ "$(wc -c <o)" -eq 67108864 ] || fail 'the size of that list'
    expect 'OUT of 67,108,864 bytes' 0 'complete: 1' check t.e o l
    wide 1028 >t.e
    wide_list t.e >o
    expect 'a search whose list has one byte more' 0 'complete: 1' solve t.e l
    expect 'OUT of 67,108,865 bytes' 3 'no list line 261624' check t.e o l
    sed -i 3d o
    echo >>o
    expect 'OUT of fewer bytes, with a line behind its last' 3 'no list line 261624' check t.e o l
    wide_list t.e | sed '3s/)/ )/' >o
    expect 'OUT of too many bytes, at fault before' 3 'no list line 3' check t.e o l
}

# A log of so many bytes for a file of 1,000 facts: steps to the first fact with the others as hints, as many as there is room for, then
# steps of ten bytes, one step of 12 to 21 bytes, and the last step. No step names a hint twice.
long_log() {
    awk -v bytes="$1" 'BEGIN {
        header = "log 1 1000 1000\nb "
        for (i = 0; i < 250; i++) header = header "f"
        header = header "\n"
        for (i = 2; i <= 1000; i++) others = others i " "
        step = "d 1 0 " others "1 0\n"
        last = "d 0 1 " others "1001 0\nend complete: 1\n"
        left = bytes - length(header) - length(last)
        printf "%s", header
        for (; left >= length(step) + 12; left -= length(step)) printf "%s", step
        for (; left >= 22; left -= 10) printf "d 1 0 1 0\n"
        hints = left % 2 ? "10 " : ""
        for (i = 2; 10 + length(hints) < left; i++) hints = hints i " "
        printf "d 1 0 %s1 0\n%s", hints, last
    }'
}

logs() {
    local lines
    numbers 1000 >t.e
    { printf 'model 1:\nP\n'; numbered 'P({}).\n' 1000; echo 'complete: 1'; } >o
    long_log 268435456 >l
    [ "$(wc -c <l)" -eq 268435456 ] || fail "the log's size: $(wc -c <l)"
    expect 'LOG of 268,435,456 bytes' 0 'complete: 1' check t.e o l
    long_log 268435457 >l
    [ "$(wc -c <l)" -eq 268435457 ] || fail "the log's size: $(wc -c <l)"
    lines=$(wc -l <l)
    expect 'LOG of 268,435,457 bytes' 3 "no log line $lines" check t.e o l
    sed -i '1s/1000$/1001/' l
    expect 'LOG of too many bytes, at fault before' 3 'no log line 1' check t.e o l
}

numbers_of_words() {
    : >t.e
    expect '10,000 models' 0 'complete: 1' solve t.e l --models 10000
    expect '10,001 models' 6 'usage' solve t.e l --models 10001
    expect '2,000,000,000 conflicts' 0 'complete: 1' solve t.e l --conflicts 2000000000
    expect '2,000,000,001 conflicts' 6 'usage' solve t.e l --conflicts 2000000001
}

numbers_in_files() {
    printf 'sort big: integer\nrange big -1000000 1000000\n' >t.e
    expect 'a range from -1,000,000 to 1,000,000' 0 'complete: 1' list t.e
    printf 'sort big: integer\nrange big -1000000 1000001\n' >t.e
    expect 'a range to 1,000,001' 2 'refused E08 t.e:2: big' list t.e
    printf '1=1000000000.\n' >t.e
    expect 'the number 1,000,000,000' 0 'complete: 0' list t.e
    printf '1=1000000001.\n' >t.e
    expect 'the number 1,000,000,001' 2 'refused E05 t.e:1: 1000000001' list t.e
}

numbers_of_words
numbers_in_files
files_and_names
sentences
atoms
weight
lists
logs
finish
