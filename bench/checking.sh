#!/usr/bin/env bash
# Times `dec list` on files of about 1 MB with many names: all are read, sorted, split, numbered and weighed, and refused then for
# their weight or their many atoms.
set -eu
source "$(dirname "${BASH_SOURCE[0]}")/measure.sh"

# One line: the file, its bytes, the least processor time of five runs, and what the program put first.
measure() {
    local seconds
    seconds=$(least_time 5 "$1")
    printf '%-12s %8d bytes %6.3f s  %s\n' "$1" "$(bytes_of "$1")" "$seconds" "$(head -n 1 "$folder/out")"
}

# So many constants, and so many sentences, each about one of them.
names() {
    awk -v constants="$1" -v sentences="$2" 'BEGIN {
        printf "sort a\npredicate P(a)\na C0"
        for (i = 1; i < constants; i++) printf ",C%d", i
        printf "\n"
        for (i = 0; i < sentences; i++) printf "P(a) -> P(C%d).\n", int(i * constants / sentences)
    }'
}

# Sorts below one another, each with a constant.
chain() {
    awk -v sorts="$1" 'BEGIN {
        printf "sort a\npredicate P(a)\nsort s0x: a\n"
        for (i = 1; i < sorts; i++) printf "sort s%dx: s%dx\n", i, i - 1
        for (i = 0; i < sorts; i++) printf "s%dx C%d\nP(C%d).\n", i, i, i
    }'
}

names 100000 10000 >"$folder/constants"
names 50000 35000 >"$folder/sentences"
chain 1000 >"$folder/chain"
for file in constants sentences chain; do
    measure "$file"
done
