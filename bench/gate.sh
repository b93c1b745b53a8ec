#!/usr/bin/env bash
# Runs the gate and tells where its time went: processor minutes by crate, and by proofs, tests and edits that must be refused.
# Words go to `rt ci`: with none the whole gate, of which what an earlier run passed is kept; `--anew` for all of it; names of crates for these
# and those below. What `rt ci` says stands in a file of its own, whose name comes first. The status is that of `rt ci`.
# bench/gate.py PID does the same for a gate that is running already; what ended before is then in its total alone.
set -u
cd "$(dirname "${BASH_SOURCE[0]}")/.."
log=$(mktemp -t gate.XXXXXX)
echo "rt ci $*: $log"
rt ci "$@" >"$log" 2>&1 &
gate=$!
python3 bench/gate.py "$gate"
wait "$gate"
status=$?
tail -n 2 "$log"
exit "$status"
