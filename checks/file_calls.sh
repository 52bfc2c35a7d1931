#!/usr/bin/env bash
# What no clause can say of the program: its system calls on the files of an image, and their order. A file is locked before it is read
# or written, what a bind makes or finds is made stable, with the name of a new file in its folder, and a commit is two writes, each with
# a sync behind it. Each of these calls is failed once: the answer is `! disk fault`, and no call is made again. Of a mirror one side
# fails: it is called no more, the run goes on, and the next one makes both files alike. A new one of which a name is taken makes nothing.
#
#   checks/file_calls.sh [PROGRAM]      the program that `rt ci` leaves where none is named
#
# Where the program is not built, or there is no `strace`, it says so and its status is 0.
cd "$(dirname "$0")/.." || exit 1
program=$(realpath -m "${1:-crates/isotope/out/isotope}")
[ -x "$program" ] || { echo "file_calls: there is no $program, so it is not tried"; exit 0; }
strace -qq -o /dev/null true 2> /dev/null || { echo "file_calls: strace cannot be run here, so the calls are not looked at"; exit 0; }
work=$(cd "$(mktemp -d)" && pwd -P) || exit 1
trap 'rm -rf "$work"' EXIT
cd "$work" || exit 1
status=0
numbers=(--block-size 64 --blocks 4 --log 256)
printf '1 begin\n1 put 0 0 aa\n1 end\n' > commit.script
printf '1 ok begin 0\n1 ok\n1 ok commit 1\n' > commit.replies
printf '1 begin\n1 put 0 1 bb\n1 end\n' > next.script
: > empty.script

# Runs the program on an input with all its calls told, and with further words for strace before `--`; what it says and its status are kept.
traced() {
  local input=$1 words=()
  shift
  while [ "$1" != -- ]; do words+=("$1"); shift; done
  shift
  timeout 60 strace -qq -y -s 0 -o log -e signal=none -e trace=openat,flock,fsync,fdatasync,pread64,pwrite64 "${words[@]}" "$program" "$@" < "$input" > said 2>&1
  ended=$?
  calls > called
}

# The calls of the last run on the files of this folder, one a line: what was called, and the file.
calls() {
  awk -v here="$work" '
    /^openat\(/ {
      split($0, quoted, "\"")
      if (quoted[2] ~ /^\//) next
      print ($0 ~ /O_EXCL/ ? "create" : "open"), quoted[2]
      next
    }
    {
      call = substr($0, 1, index($0, "(") - 1)
      from = index($0, "<"); to = index($0, ">")
      file = substr($0, from + 1, to - from - 1)
      if (file == here) print call, "."
      else if (index(file, here "/") == 1) print call, substr(file, length(here) + 2)
    }
  ' log
}

# The last calls but reads.
writes() { grep -v '^pread64 ' called; }

tell() { echo "file_calls: $1"; status=1; }

# Whether a file is what is wanted.
same() { cmp -s "$2" "$3" || { tell "$1: wanted, and found:"; cat "$2"; echo --; cat "$3"; }; }

ended_as() { [ "$ended" = "$2" ] || tell "$1: the status is $ended, not $2"; }

# The calls that bind a new file or one that is there, and those that lay a front and make a commit. Behind its bind an image that is
# there is synced once more as it is opened.
binding() { printf '%s\n' "create $1" "flock $1" "pwrite64 $1" "fsync $1" "open $2" "fsync $2"; }
opening() { printf '%s\n' "open $1" "flock $1" "fsync $1"; }
each() { for file in "${@:2}"; do echo "$1 $file"; done; }
write() { each pwrite64 "$@"; }
sync() { each fdatasync "$@"; }
front() { write "$@"; write "$@"; sync "$@"; write "$@"; sync "$@"; }
commit() { write "$@"; sync "$@"; write "$@"; sync "$@"; }

# --- one file

mkdir folder
traced commit.script -- new folder/t.img "${numbers[@]}"
ended_as new 0
same "what new says" commit.replies said
{ binding folder/t.img folder; front folder/t.img; commit folder/t.img; } > wanted
writes > found
same "the calls of new" wanted found

traced next.script -- run folder/t.img
ended_as run 0
{ opening folder/t.img; sync folder/t.img; commit folder/t.img; } > wanted
writes > found
same "the calls of run" wanted found
opening folder/t.img > wanted
head -3 called > found
same "the first calls of run, before it reads" wanted found

traced empty.script -- recover folder/t.img
ended_as recover 0
{ opening folder/t.img; sync folder/t.img; } > wanted
writes > found
same "the calls of recover" wanted found

# Each call of a new image with one commit fails: it is the last one, but for what lets a file go that is not whole.
fails() {
  local call=$1 number=$2 name=f.img
  rm -f $name
  traced commit.script -e inject="$call:error=EIO:when=$number" -- new $name "${numbers[@]}"
  ended_as "new, where $call $number fails" 5
  [ "$(tail -1 said)" = '! disk fault' ] || tell "new, where $call $number fails, ends with: $(tail -1 said)"
  [ "$(grep -c "^$call " called)" = "$number" ] || tell "new, where $call $number fails: $call is called again"
  tail -1 log | grep -q INJECTED || tell "new, where $call $number fails: behind it there are further calls: $(tail -1 log)"
}
for number in 1 2 3 4; do fails fdatasync $number; done
for number in 1 2 3 4 5 6; do fails pwrite64 $number; done
for number in 1 2; do
  fails fsync $number
  [ ! -e f.img ] || tell "new, where fsync $number fails, leaves a file"
done
fails flock 1
[ ! -e f.img ] || tell "new, where flock fails, leaves a file"

# A write of which the system takes a part goes on behind it, and one of which it takes nothing is a fault; so is a read that gets nothing.
rm -f p.img
traced commit.script -e inject=pwrite64:retval=3:when=5 -- new p.img "${numbers[@]}"
ended_as "new, where a write is cut" 0
awk -F, '/^pwrite64/ { if (cut) { exit !($(NF - 1) + 0 == len - 3 && $NF + 0 == at + 3) } if (/INJECTED/) { cut = 1; len = $(NF - 1) + 0; at = $NF + 0 } }' log || tell "a write of which 3 bytes were taken does not go on behind them"
rm -f p.img
traced commit.script -e inject=pwrite64:retval=0:when=5 -- new p.img "${numbers[@]}"
ended_as "new, where a write takes nothing" 5
traced empty.script -- run folder/t.img
others=$(awk -v here="$work/" '/^pread64/ { if (index($0, "<" here)) exit; n++ } END { print n + 0 }' log)
traced empty.script -e inject=pread64:retval=0:when=$((others + 1)) -- run folder/t.img
ended_as "run, where a read gets nothing" 5
tail -1 log | grep -q INJECTED || tell "run, where a read gets nothing, goes on"

# Closed streams do not become the image.
"$program" new c.img "${numbers[@]}" < commit.script >&-
[ $? = 7 ] || tell "new with a closed output: the status is not 7"
"$program" recover c.img < /dev/null > said 2>&1 || tell "new with a closed output leaves no image: $(cat said)"

# --- a mirror

traced commit.script -- new m.img+ "${numbers[@]}"
ended_as "new of a mirror" 0
same "what new says of a mirror" commit.replies said
sides=(m.img+0 m.img+1)
{ binding m.img+0 .; binding m.img+1 .; for side in "${sides[@]}"; do write "$side"; sync "$side"; done; front "${sides[@]}"; commit "${sides[@]}"; } > wanted
writes > found
same "the calls of new of a mirror" wanted found
cmp -s m.img+0 m.img+1 || tell "the sides of a new mirror differ"

# Where one of its names is taken, by whatever it is, a new mirror opens no file of it and makes none.
taken() {
  local what=$1 name=$2 other=$3
  traced commit.script -- new n.img+ "${numbers[@]}"
  ended_as "new of a mirror, where $name is $what" 5
  [ "$(cat said)" = '! disk fault' ] || tell "new of a mirror, where $name is $what, says: $(cat said)"
  [ ! -s called ] || tell "new of a mirror, where $name is $what, calls: $(cat called)"
  [ ! -e "$other" ] || tell "new of a mirror, where $name is $what, makes $other"
}
for pair in 'n.img+0 n.img+1' 'n.img+1 n.img+0'; do
  read -r name other <<< "$pair"
  echo text > "$name"
  taken 'a file' "$name" "$other"
  exec 9< "$name"
  ! command -v flock > /dev/null || flock 9
  taken 'a file in use' "$name" "$other"
  exec 9<&-
  chmod 000 "$name"
  taken 'a file that may not be read' "$name" "$other"
  [ "$(stat -c %s "$name")" = 5 ] || tell "new of a mirror changes $name, which exists"
  rm -f "$name"
  ln -s nothing "$name"
  taken 'a link to nothing' "$name" "$other"
  rm "$name"
  mkdir "$name"
  taken 'a folder' "$name" "$other"
  rmdir "$name"
done

# One that stands alike is not written, by a run without a commit or by recover.
for word in run recover; do
  traced empty.script -- $word m.img+
  ended_as "$word of a mirror" 0
  ! grep -q '^pwrite64 ' called || tell "$word of a mirror that stands alike writes"
  { opening m.img+0; opening m.img+1; } > wanted
  head -6 called > found
  same "the first calls of $word of a mirror, before it reads" wanted found
done

# Where a side fails it is called no more, and the other one has all; the next run makes both alike.
cp m.img+0 whole+0
cp m.img+1 whole+1
left_out() {
  local call=$1 number=$2 failed at
  cp whole+0 m.img+0
  cp whole+1 m.img+1
  traced next.script -e inject="$call:error=EIO:when=$number" -- run m.img+
  ended_as "run of a mirror, where $call $number fails" 0
  failed=$(grep INJECTED log | sed 's/^[^<]*<\([^>]*\)>.*/\1/')
  [ -n "$failed" ] || tell "run of a mirror: $call $number is not called"
  at=$(grep -n INJECTED log | cut -d: -f1)
  ! tail -n +$((at + 1)) log | grep -qF "<$failed>" || tell "run of a mirror, where $call $number fails: $(basename "$failed") is called again"
  timeout 60 "$program" run m.img+ < empty.script > said || tell "the run behind it fails: $(cat said)"
  cmp -s m.img+0 m.img+1 || tell "the run behind it leaves the sides apart"
  [ "$(timeout 60 "$program" recover m.img+ < empty.script | head -1)" = "$recovered" ] || tell "run of a mirror, where $call $number fails, lost its commit"
}
traced next.script -- run m.img+
recovered=$(timeout 60 "$program" recover m.img+ < empty.script | head -1)
first=$(grep -n '^pwrite64 ' called | head -1 | cut -d: -f1)
before=$(head -n "$first" called | grep -c '^fdatasync ')
for number in 1 2 3 4; do
  left_out pwrite64 $number
  left_out fdatasync $((before + number))
done

# recover as the first call: where the second side is damaged both are alike afterwards, and without it the first one is left as it was.
cp whole+0 m.img+0
cp whole+1 m.img+1
printf XXXX | dd of=m.img+1 bs=1 seek=300 conv=notrunc 2> said
! cmp -s m.img+0 m.img+1 || tell 'the second side has these bytes already'
timeout 60 "$program" recover m.img+ < empty.script > said || tell "recover of a mirror with a damaged second side: $(cat said)"
cmp -s whole+0 m.img+0 || tell 'recover of a mirror with a damaged second side writes the first one'
cmp -s m.img+0 m.img+1 || tell 'recover of a mirror leaves a damaged second side'
rm m.img+1
timeout 60 "$program" recover m.img+ < empty.script > said
[ $? = 5 ] || tell 'recover of a mirror without its second side does not end with 5'
[ "$(cat said)" = '! disk fault' ] || tell "recover of a mirror without its second side answers: $(cat said)"
cmp -s whole+0 m.img+0 || tell 'recover of a mirror without its second side writes the first one'
[ ! -e m.img+1 ] || tell 'recover of a mirror makes the side that is gone'

exit $status
