# What scripts for hostile use share, limits.sh among them; they source it. It makes a folder for their files, which goes with them, and goes there.
# Its word is the built program; without one, the program of this repository is proved and built where that is needed.
here=$(cd "$(dirname "${BASH_SOURCE[0]}")/.." && pwd)
if [ $# -gt 0 ]; then
    program=$(realpath "$1")
else
    "$here/dec" list "$here/examples/pq.e" >/dev/null
    program=$here/crates/dec/out/dec
fi
folder=$(mktemp -d)
trap 'chmod -R u+rwX "$folder"; rm -rf "$folder"' EXIT
cd "$folder"
failures=0

# A run that went wrong: its name and what was wanted. The script goes on, and ends with status 1.
fail() {
    failures=$((failures + 1))
    printf 'FAILED %s\n' "$*"
}

# The script's last line and its status.
finish() {
    if [ "$failures" -gt 0 ]; then
        printf '%d failed\n' "$failures"
        exit 1
    fi
    echo 'all as docs/COMMANDS.md says'
}
