#!/usr/bin/env bash
# Times the search on pigeons, random clauses and free variables, beside MiniSat where it is installed; proves and builds the
# program first.
set -eu
here=$(cd "$(dirname "${BASH_SOURCE[0]}")/.." && pwd)
program="$here/crates/bench_search/out/bench_search"
folder=$(mktemp -d)
trap 'rm -rf "$folder"' EXIT

(cd "$here/crates/bench_search" && rt run >out/build.log 2>&1 </dev/null)

# The processor seconds that a command took, with three places.
seconds() {
    local TIMEFORMAT=%U
    { time "$@" >/dev/null 2>&1 || true; } 2>&1
}

# One line: the instance, what came of it, the processor seconds that it took, and those of MiniSat where it is installed.
measure() {
    printf '%-16s %s in %s s' "$*" "$("$program" "$@")" "$(seconds "$program" "$@")"
    if command -v minisat >/dev/null; then
        "$program" dimacs "$@" >"$folder/list.cnf"
        minisat "$folder/list.cnf" >"$folder/minisat" || true
        printf '; MiniSat %s conflicts in %s s' "$(awk '/^conflicts/ { print $3 }' "$folder/minisat")" "$(seconds minisat "$folder/list.cnf")"
    fi
    printf '\n'
}

measure pigeons 8
measure pigeons 9
for size in 150 200; do
    for seed in 1 2 3 4 5 6 7 8 9 10; do
        measure random "$size" "$seed"
    done
done
printf '%-16s %s in %s s\n' "free 200" "$("$program" free 200)" "$(seconds "$program" free 200)"
