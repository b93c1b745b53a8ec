#!/usr/bin/env bash
# Times a clause list of 500,000 clauses from trees of 2,000,000 nodes; proves and builds the program first.
set -eu
here=$(cd "$(dirname "${BASH_SOURCE[0]}")/.." && pwd)
program="$here/crates/bench_clauses/out/bench_clauses"

mkdir -p "$here/crates/bench_clauses/out"
(cd "$here/crates/bench_clauses" && rt run >out/build.log 2>&1 </dev/null)

for run in 1 2 3; do
    start=$(date +%s%N)
    clauses=$("$program" 125000)
    end=$(date +%s%N)
    printf '%s in %d.%03d s\n' "$clauses" $(((end - start) / 1000000000)) $(((end - start) / 1000000 % 1000))
done
