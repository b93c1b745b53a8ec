#!/usr/bin/env bash
# Times `dec list` on files of about 1 MiB that are long in one way each. Each run ends with a list or a refusal.
# It wants GNU time.
set -eu
source "$(dirname "${BASH_SOURCE[0]}")/measure.sh"

# The text so many times.
repeat() {
    awk -v text="$1" -v times="$2" 'BEGIN { for (i = 0; i < times; i++) printf "%s", text }'
}

# One line: the file, its bytes, the least processor time of five runs, the speed, the peak memory of one run more, and what the
# program put first.
measure() {
    local seconds bytes memory
    seconds=$(least_time 5 "$1")
    bytes=$(bytes_of "$1")
    memory=$( { /usr/bin/time -f '%M' "$here/dec" list "$1" >/dev/null || true; } 2>&1 | tail -n 1)
    awk -v file="$1" -v bytes="$bytes" -v least="$seconds" -v memory="$memory" -v put="$(head -n 1 "$folder/out")" 'BEGIN {
        printf "%-12s %8d bytes %6.3f s %6.1f MB/s %8d kB  %s\n", file, bytes, least, bytes / 1e6 / (least > 0.001 ? least : 0.001), memory, put }'
}

cd "$folder"
{ printf 'predicate P()\nP()'; repeat '&P()' 262139; printf '.'; } >one_line
{ printf 'predicate P()\n'; repeat $'P.\n' 300000; } >statements
{ printf 'P(variable0'; repeat ',variable0' 99999; printf ').'; } >terms
repeat ' ' 1048576 >spaces
repeat 'P().' 262144 >atoms
for file in one_line statements terms spaces atoms; do
    measure "$file"
done
