#!/usr/bin/env bash
# Commits a second of 1, 4, 16 and 64 threads on a slow disk: where each ends its transactions by itself/all end them together.
#
# checks/commit_load.sh [PROGRAM [FOLDER]]
#
# PROGRAM is build/commit_load, as ./isotope prove commit_load leaves it. The image is made in FOLDER, /dev/shm, whose own syncs take
# nothing; each sync waits as long as the table says. Each number is of a run of half a second at least, without what a run of no
# commits takes.
set -eu
program=$(realpath "${1:-build/commit_load}")
cd "$(mktemp -d -p "${2:-/dev/shm}")"
trap 'rm -rf "$PWD"' EXIT

# The microseconds that a load takes. Each transaction has to commit.
took() {
    local begun=${EPOCHREALTIME/./}
    "$program" "$@" >said
    local ended=${EPOCHREALTIME/./}
    grep -q "^$(($1 * $2)) commits" said || { echo "not all have committed: $*: $(cat said)" >&2; exit 1; }
    echo $((ended - begun))
}

# The commits a second of so many threads, with this pause and these ends. The log has room for 80,000 commits.
rate() {
    local each=1 idle time=0
    idle=$(took "$1" 0 "$2" "$3")
    while time=$(($(took "$1" "$each" "$2" "$3") - idle)); ((time < 500000 && $1 * each * 2 <= 80000)); do
        each=$((each * 2))
    done
    echo $(($1 * each * 1000000 / time))
}

printf '%-8s%-15s%-15s%-15s%s' sync 1 4 16 64
for pause in 0 100 2000; do
    printf '\n%-8s' "${pause}us"
    for threads in 1 4 16 64; do
        printf '%-15s' "$(rate $threads $pause plain)/$(rate $threads $pause together)"
    done
done
echo
