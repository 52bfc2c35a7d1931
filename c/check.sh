#!/usr/bin/env bash
# check.sh: builds libisotope over what is proved already, and tests it: what the tests of this folder print, images and replies beside the
# program's, stops, kills, threads, memory; and python/test_isotope.py and c/sqlite_check.sh. Its status is 1 where something is wrong.
# What the machine lacks is skipped, with a line that says so.
#
#   c/check.sh      ARCHIVE may name an archive of isotope_c that is built already, and PROGRAM the program, else what is left of a build
set -u
here=$(cd "$(dirname "$(readlink -f "$0")")" && pwd)
top=$(dirname "$here")
out=$here/out
cc=${CC:-cc}
status=0
for tool in "$cc" make ar objcopy; do
  command -v "$tool" > /dev/null || { echo "c: skipped, there is no $tool"; exit 0; }
done
program=${PROGRAM:-}
for file in "$top/crates/isotope/out/isotope" "$top/build/isotope"; do
  [ -n "$program" ] || [ ! -x "$file" ] || program=$file
done
[ -n "$program" ] || echo 'c: there is no program isotope, so nothing is compared with it'

if [ -z "${ARCHIVE:-}" ] && ! "$here/archive.sh" --ready; then
  echo 'c: skipped, neither rt ci nor ./isotope has left the libraries below isotope_c'
  exit 0
fi
make -s -C "$here" "OUT=$out" ${ARCHIVE:+"ARCHIVE=$ARCHIVE"} all tests || { echo 'c: it cannot be built'; exit 1; }
archive=${ARCHIVE:-$out/libisotope_c.a}
heap=$(dirname "$(rt doc)")/c/liblibc_c.a

# in memory where that can be: what is tested is what is in the file when, and no disk
work=$(mktemp -d /dev/shm/isotope-c-XXXXXX 2> /dev/null || mktemp -d)
trap 'rm -rf "$work"' EXIT
cd "$work" || exit 1

# Runs a test with a time limit; what it says is shown where its status is not 0.
passes() {
  local name=$1 ended
  shift
  timeout 900 "$@" > "$work/$name.said" 2> "$work/$name.errors" < /dev/null
  ended=$?
  [ "$ended" != 0 ] || return 0
  echo "c: $name: status $ended"
  tail -n 20 "$work/$name.said"
  tail -n 20 "$work/$name.errors"
  return 1
}

# The same, and it prints what stands beside it.
prints() {
  passes "$@" || return 1
  cmp -s "$work/$1.said" "$here/$1.wanted" && return 0
  echo "c: $1: wanted, and found:"
  diff "$here/$1.wanted" "$work/$1.said" | head -20
  return 1
}

# The program's replies, without the numbers that isotope.h does not tell.
told_of() { sed -E 's/ (no-blocks|broken) .*/ \1/'; }

# An image of these numbers on which the program and the C library answer one script: the same replies, and the same bytes.
answers_alike() {
  local name=$1 script=$2 size=$3 blocks=$4 log=$5 hash=$6 tree=$7
  local words=(--block-size "$size" --blocks "$blocks" --log "$log" --hash "$hash" --tree "$tree")
  rm -f "$name.img" "$name-c.img"
  "$program" new "$name.img" "${words[@]}" < "$script" | told_of > "$name.replies"
  "$out/script" new "$name-c.img" "$size" "$blocks" "$log" 1 "$hash" "$tree" < "$script" > "$name-c.replies"
  cmp "$name.replies" "$name-c.replies" && cmp "$name.img" "$name-c.img" && return 0
  echo "c: $name: the program and the library are apart"
  return 1
}

# The examples, drawn scripts on new images, and drawn ones on images that the other one left.
scripts() {
  local bad=0 name words seed kind numbers
  while read -r name words; do
    # shellcheck disable=SC2086
    answers_alike "$name" "$top/examples/$name.script" $words || bad=1
    cmp "$name-c.replies" "$top/examples/$name.replies" || bad=1
  done << 'END'
compaction 64 4 256 0 0
conflict 64 4 256 0 0
files 256 16 8192 0 4
first 4096 1024 4194304 0 0
group 64 4 256 0 0
handle 64 4 256 0 0
mark 64 4 256 0 0
merge 64 4 256 0 0
modes 64 4 256 0 0
room 64 4 64 0 0
small 64 4 256 0 0
stores 256 8 4096 3 2
END
  for seed in $(seq 20); do
    for kind in blocks stores; do
      numbers='64 4 1024 0 0'
      [ "$kind" = blocks ] || numbers='256 48 32768 8 8'
      awk -v seed="$seed" -v count=400 -v kind=$kind -f "$here/draw.awk" > drawn.script
      # shellcheck disable=SC2086
      answers_alike "drawn-$kind-$seed" drawn.script $numbers || bad=1
      awk -v seed="$((seed + 100))" -v count=200 -v kind=$kind -f "$here/draw.awk" > again.script
      mv "drawn-$kind-$seed.img" of-program.img
      mv "drawn-$kind-$seed-c.img" of-c.img
      "$program" run of-c.img < again.script | told_of > by-program.replies
      "$out/script" run of-program.img < again.script > by-c.replies
      cmp by-program.replies by-c.replies && cmp of-c.img of-program.img && continue
      echo "c: seed $seed, $kind: each on the image of the other, they are apart"
      bad=1
    done
  done
  return $bad
}

# The program opens the images that the tests of this folder leave, and finds the commits that the library finds.
opens() {
  local name bad=0 told
  for name in example stores threads; do
    [ "$name" != threads ] || "$out/threads" threads-2.img count 2 500 > /dev/null || bad=1
    [ "$name" != threads ] || name=threads-2
    told=$("$program" recover "$name.img" | cut -d ' ' -f 1-4)
    [ -n "$told" ] && echo '1 stat' | "$out/script" run "$name.img" | grep -q "^1 ok $told " && continue
    echo "c: $name.img: the program and the library open it otherwise: $told"
    bad=1
  done
  return $bad
}

# A bench through isotope.h leaves the image of the program's, and the same sums.
benches() {
  local bad=0 seed rounds
  while read -r seed rounds; do
    rm -f bench.img bench-c.img
    "$program" bench bench.img "$seed" "$rounds" | cut -d ' ' -f 1-6 > bench.said
    "$out/bench" bench-c.img "$seed" "$rounds" 2> bench.time | cmp - bench.said && cmp bench.img bench-c.img || bad=1
  done << 'END'
7 1000
11 3000
END
  [ "$bad" = 0 ] || echo 'c: bench: the program and the library are apart'
  return $bad
}

# With memory watched: the C files are compiled for it, the archive is as it is.
watched() {
  local name=$1 flags=$2 wrap=$3 file able=
  local sources=("$here/lock.c" "$here/device.c" "$here/ends.c" "$here/isotope.c" "$archive" "$heap")
  echo 'int main(void) { return 0; }' > "$name-empty.c"
  # shellcheck disable=SC2086
  "$cc" $flags -pthread "$name-empty.c" -o "$name-empty" 2> /dev/null && "./$name-empty" && able=1
  [ -n "$able" ] || { echo "c: $name: skipped, $cc has no $flags"; return 2; }
  for file in "${@:4}"; do
    # shellcheck disable=SC2086
    "$cc" -O1 -g $flags -pthread -I "$here" $wrap -o "$name-$file" "$here/$file.c" "${sources[@]}" || return 1
  done
}

sanitized() {
  local wrap=-Wl,--wrap=pwrite,--wrap=fdatasync,--wrap=fsync flags='-fsanitize=address,undefined -fno-sanitize-recover=all'
  watched sanitized "$flags" '' example stores && watched sanitized "$flags" "$wrap" misuse
  case $? in 1) return 1 ;; 2) return 0 ;; esac
  mkdir sanitized-folder
  passes sanitized-example ./sanitized-example sanitized-1.img \
    && passes sanitized-stores ./sanitized-stores sanitized-2.img \
    && passes sanitized-misuse ./sanitized-misuse sanitized-folder
}

races() {
  local wrap=-Wl,--wrap=pwrite,--wrap=fdatasync,--wrap=fsync
  watched races -fsanitize=thread -Wl,--wrap=fdatasync threads && watched races -fsanitize=thread "$wrap" misuse
  case $? in 1) return 1 ;; 2) return 0 ;; esac
  mkdir races-folder
  passes races-count ./races-threads races.img count 2 100000 && passes races-rates ./races-threads races.img rates 200 200 \
    && passes races-misuse ./races-misuse races-folder
}

valgrinded() {
  command -v valgrind > /dev/null || { echo 'c: skipped, there is no valgrind'; return 0; }
  local watch=(valgrind -q --error-exitcode=9 --leak-check=full --child-silent-after-fork=yes)
  mkdir valgrinded-folder
  passes valgrinded-example "${watch[@]}" "$out/example" valgrinded-1.img \
    && passes valgrinded-stores "${watch[@]}" "$out/stores" valgrinded-2.img \
    && passes valgrinded-misuse "${watch[@]}" "$out/misuse" valgrinded-folder
}

threads() {
  passes threads "$out/threads" threads.img count 2 100000 || return 1
  passes threads-rates "$out/threads" rates.img rates 2000 400 || return 1
  cat threads.said threads-rates.said
}

python() {
  [ -e "$top/python/test_isotope.py" ] || return 0
  command -v python3 > /dev/null || { echo 'c: skipped, there is no python3'; return 0; }
  passes python env LIBISOTOPE="$out/libisotope.so" ${program:+"ISOTOPE=$program"} python3 "$top/python/test_isotope.py"
}

sqlite() {
  [ -e "$here/sqlite_check.sh" ] || return 0
  passes sqlite "$here/sqlite_check.sh" "$out" || return 1
  grep skipped sqlite.said || true
}

# Each part, several side by side; the rates alone, at the end.
parts=(sanitized races valgrinded python sqlite)
[ -z "$program" ] || parts+=(scripts benches opens)
declare -A part
mkdir folder
{ prints example "$out/example" example.img && prints stores "$out/stores" stores.img && prints misuse "$out/misuse" folder; } || status=1
for name in "${parts[@]}" stops kills; do
  case $name in
    stops) prints stops "$out/stops" "$work/stops.img" ${program:+"$program"} & ;;
    kills) passes kills "$out/kills" "$work/kills.img" 150 & ;;
    *) "$name" & ;;
  esac
  part[$!]=$name
done
for pid in "${!part[@]}"; do
  wait "$pid" || { echo "c: ${part[$pid]} failed"; status=1; }
done
threads || status=1
[ "$status" = 0 ] && echo "c: all passed, $SECONDS s"
exit $status
