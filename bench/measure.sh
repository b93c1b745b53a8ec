# What the benches of `dec list` share; they source it. It makes a folder for their files, which goes with them, and sees to it
# that the program is built.
here=$(cd "$(dirname "${BASH_SOURCE[0]}")/.." && pwd)
folder=$(mktemp -d)
trap 'rm -rf "$folder"' EXIT
"$here/dec" list "$here/examples/pq.e" >"$folder/out"

# The least processor time of so many runs of `dec list` on a file of the folder, in seconds. What it put stands in `out` there.
least_time() {
    local runs=$1 file=$2 run
    local TIMEFORMAT='%3U %3S'
    for ((run = 0; run < runs; run++)); do
        { time "$here/dec" list "$folder/$file" >"$folder/out" || true; } 2>&1
    done | awk '{ used = $1 + $2; if (NR == 1 || used < least) least = used } END { printf "%.3f", least }'
}

# How many bytes a file of the folder has.
bytes_of() {
    wc -c <"$folder/$1"
}
