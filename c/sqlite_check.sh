#!/usr/bin/env bash
# sqlite_check.sh OUT [bench]: builds the SQLite VFS over OUT/libisotope.a, as an extension and linked, and tests it within 90 seconds. With
# `bench` it measures it beside SQLite's own journals as well. Its status is 1 where something is wrong, and it says what it skips.
set -u
here=$(cd "$(dirname "$0")" && pwd)
out=$(realpath "$1")
bench=${2:-}
cc=${CC:-cc}

skip() { echo "sqlite: skipped, there is no $1"; exit 0; }
command -v python3 > /dev/null || skip python3
echo '#include <sqlite3.h>' | "$cc" -E - > /dev/null 2>&1 || skip 'sqlite3.h (libsqlite3-dev)'

# In memory where that can be: the tests are about what is in the file when, and not about a disk.
work=$(mktemp -d /dev/shm/isotope-sqlite-XXXXXX 2> /dev/null || mktemp -d "$out/sqlite-XXXXXX")
trap 'rm -rf "$work"' EXIT

flags=(-O2 -Wall -Wextra -pthread -I "$here")
"$cc" "${flags[@]}" -shared -fPIC "$here/sqlite_vfs.c" "$out/libisotope.a" -o "$out/isotope_vfs.so" &&
"$cc" "${flags[@]}" "$here/sqlite_test.c" -lsqlite3 -o "$out/sqlite_test" &&
"$cc" "${flags[@]}" -DLINKED -DSQLITE_CORE "$here/sqlite_test.c" "$here/sqlite_stop.c" "$here/sqlite_vfs.c" "$out/libisotope.a" -lsqlite3 \
  -Wl,--wrap=pwrite,--wrap=fdatasync,--wrap=fsync -o "$out/sqlite_stop" || exit 1
export ISOTOPE_VFS=$out/isotope_vfs.so
test=$out/sqlite_test
stop=$out/sqlite_stop
status=0

# The name of a new image with these words.
image() { rm -f "$work/$1.img"*; echo "file:$work/$1.img?vfs=isotope&$2"; }

# The same statements on an image and on a plain database print the same, and a new process finds the same rows.
compare() {
  local seed=$1 count=$2 words=$3 pragmas=$4 name
  name=$(image same "blocks=4096&log=8388608$words")
  rm -f "$work/plain.db"
  { echo "$pragmas"; python3 "$here/sqlite_statements.py" "$seed" "$count"; } > "$work/statements.sql"
  "$test" run "$name" < "$work/statements.sql" > "$work/image.said"
  "$test" run "$work/plain.db" < "$work/statements.sql" > "$work/plain.said"
  "$test" dump "$name" > "$work/image.dump"
  "$test" dump "$work/plain.db" > "$work/plain.dump"
  if cmp "$work/image.said" "$work/plain.said" && cmp "$work/image.dump" "$work/plain.dump" &&
    [ "$(tail -1 "$work/image.dump")" = ok ]; then
    echo "sqlite: the same as a plain file: seed $seed, $(wc -l < "$work/statements.sql") lines of SQL," \
      "$(grep -c '^error' "$work/image.said") refused, $(wc -c < "$work/image.dump") bytes of rows; $words $pragmas"
  else
    echo "sqlite: NOT the same as a plain file: seed $seed; $words $pragmas"
    status=1
  fi
}

# Runs a test, and prints its last line, or all of it where it is refused.
run() {
  if "$@" > "$work/said" 2>&1; then
    echo "sqlite: ${NOTE:-$2}: $(tail -1 "$work/said" | tr -s ' ')"
  else
    echo "sqlite: WRONG: $*"
    cat "$work/said"
    status=1
  fi
}

compare 11 400 "" ""
compare 12 400 "" "PRAGMA cache_size=5; PRAGMA cache_spill=1; PRAGMA auto_vacuum=FULL;"
compare 13 400 "&pages=1" "PRAGMA synchronous=OFF;"
run "$test" two "$(image two 'blocks=1024&log=4194304')"
run "$test" threads "$(image threads 'blocks=1024&log=4194304')"
NOTE="threads, optimistic" run "$test" threads "$(image threads 'blocks=1024&log=4194304&optimistic=1')"
run "$test" limits "$(image limits 'blocks=16384&log=33554432')"
NOTE=stops run python3 "$here/sqlite_stops.py" "$stop" "$test" "$work/stop.img" 'vfs=isotope&blocks=256&log=40000' 1 600 9
NOTE=kills run python3 "$here/sqlite_kills.py" "$test" "$(image kill 'blocks=1024&log=3145728')" 25 1
export PRAGMAS='PRAGMA cache_spill=1; PRAGMA cache_size=8'
NOTE="kills, spills" run python3 "$here/sqlite_kills.py" "$test" "$(image kill 'blocks=1024&log=4194304&pages=1')" 25 2
unset PRAGMAS

# A second process is told that the image is in use.
name=$(image second 'blocks=1024&log=4194304')
"$test" write "$name" > "$work/told" & writer=$!
while [ ! -s "$work/told" ] && kill -0 "$writer"; do sleep 0.1; done
"$test" run "$name" < /dev/null > "$work/said"
kill -9 "$writer"
wait "$writer" 2> /dev/null
if grep -q 'database is locked' "$work/said"; then
  echo "sqlite: a second process: $(sed 's/.*: //' "$work/said")"
else
  echo "sqlite: WRONG: a second process"; cat "$work/said"; status=1
fi

if [ "$bench" = bench ]; then
  for _ in $(seq 10); do
    "$test" bench "$(image bench 'blocks=4096&log=16777216')" isotope 10000
    for mode in wal delete; do rm -f "$work/bench.db"*; "$test" bench "$work/bench.db" $mode 10000; done
  done
fi
exit $status
