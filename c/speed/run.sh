#!/usr/bin/env bash
# run.sh [OUT]: commits a second of Isotope beside the stores whose development files are there (LMDB, SQLite, RocksDB, Berkeley DB): one
# thread on a tmpfs; 1, 4, 16 and 64 threads with syncs of 2 ms; the same on the disk of OUT; and there a commit in a group beside the floor
# of one. One run on one machine: only ratios of one run say something. OUT, default c/out, has libisotope.a.
set -eu
here=$(cd "$(dirname "$(readlink -f "$0")")" && pwd)
out=$(mkdir -p "${1:-$here/../out}" && cd "${1:-$here/../out}" && pwd)
cc=${CC:-cc}
with=(); libraries=(); peers=(isotope)
have() {
    if printf '#include <%s>\nint main(void) { return 0; }\n' "$2" | "$cc" -x c - -o /dev/null "$3" 2> /dev/null; then
        with+=("-DWITH_$4" "$here/$1_peer.c"); libraries+=("$3"); peers+=("$1")
    else
        echo "$1: left out, its development files are not there"
    fi
}
have lmdb lmdb.h -llmdb LMDB
have sqlite sqlite3.h -lsqlite3 SQLITE
have rocksdb rocksdb/c.h -lrocksdb ROCKSDB
have berkeley db.h -ldb BERKELEY
"$cc" -O2 -Wall -Wextra -pthread -o "$out/speed" "$here/speed.c" "$here/isotope_peer.c" "${with[@]}" "$out/libisotope.a" "${libraries[@]}"
"$cc" -O2 -Wall -Wextra -pthread -o "$out/group" "$here/group.c" "$out/libisotope.a"
"$cc" -O2 -Wall -Wextra -shared -fPIC -o "$out/slow_sync.so" "$here/slow_sync.c"

# PEER FOLDER COMMITS THREADS, in an empty folder
once() {
    local folder
    folder=$(mktemp -d "$2/speed.XXXXXX")
    "$out/speed" "$1" "$folder" "$3" "$4" || echo "$1: failed"
    rm -rf "$folder"
}
fast=/dev/shm; [ -w "$fast" ] || fast=$out
echo "== one thread, 100,000 commits, $fast"
for peer in "${peers[@]}"; do once "$peer" "$fast" 100000 1; done
echo "== syncs of 2 ms"
for threads in 1 4 16 64; do
    for peer in "${peers[@]}"; do LD_PRELOAD=$out/slow_sync.so SYNC_US=2000 once "$peer" "$fast" $((threads * 100 + 200)) "$threads"; done
done
echo "== the disk of $out"
for threads in 1 4 16 64; do
    for peer in "${peers[@]}"; do once "$peer" "$out" $((threads * 50 + 200)) "$threads"; done
done
echo "== a commit in a group, the disk of $out"
folder=$(mktemp -d "$out/speed.XXXXXX")
"$out/group" "$folder" 300 || echo "group: failed"
rm -rf "$folder"
