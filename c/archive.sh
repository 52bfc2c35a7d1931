#!/usr/bin/env bash
# archive.sh FILE: proves isotope_c, on which isotope.h stands, and builds its archive, over the libraries that `rt ci` has left in
# crates/*/out, or else over those that ./isotope builds in build/. So no crate below is proved twice; isotope_c itself is proved once more
# after `rt ci`, which keeps no archive. Where nothing has changed since
# the file was built it stays. What was proved is kept beside it, so that a change is soon proved again.
#
#   archive.sh --ready    only says by its status whether these libraries are there, so that nothing below has to be proved
#
# With LEFT=1 what is in crates/*/out is taken to be of this text, whatever its times: so it is directly after `rt ci`.
set -eu
top=$(cd "$(dirname "$(readlink -f "$0")")/.." && pwd)
kit=$(dirname "$(rt doc)")

# isotope_c and the crates of this repository that it stands on, each after those that it uses
crates=$(awk '
    function visit(name,    at, below) {
        if (!(name in uses) || seen[name]++) return
        split(uses[name], below, " ")
        for (at = 1; at in below; at++) visit(below[at])
        print name
    }
    /^[a-z]/ { split($0, half, ":"); split(half[1], head, " "); uses[head[1]] = half[2] }
    END { visit("isotope_c") }
' "$top/crates.txt")
uses=$(awk '/^isotope_c / { split($0, half, ":"); print half[2] }' "$top/crates.txt")

# whether nothing that the crate is made of has changed since this file was made
is_newest() {
    local crate=$1 file=$2
    [ -e "$file" ] && [ -z "$(find "$top/crates/$crate/"{src,specs,proofs} -newer "$file" -print -quit 2> /dev/null)" ]
}

all_newest() {
    local crate
    for crate in $crates; do is_newest "$crate" "$archive" || return 1; done
    [ "$archive" -nt "$top/crates.txt" ] && [ "$(rt version)" = "$(cat "$archive.kit" 2> /dev/null)" ]
}

all_left() {
    local crate file
    for crate in $crates; do
        file=$top/crates/$crate/out/rlib/$crate.rlib/format
        [ "$crate" = isotope_c ] || { [ -n "${LEFT:-}" ] && [ -e "$file" ]; } || is_newest "$crate" "$file" || return 1
    done
}

all_built() {
    local crate
    for crate in $crates; do [ "$crate" = isotope_c ] || is_newest "$crate" "$top/build/$crate.rlib" || return 1; done
}

if [ "$1" = --ready ]; then
    all_left || all_built
    exit
fi
archive=$(realpath -m "$1")
mkdir -p "$(dirname "$archive")"
all_newest && exit 0
words=(--extern "std=$kit/rlibs/std.rlib" -L "dependency=$kit/rlibs")
if all_left; then
    for crate in $crates; do words+=(-L "dependency=$top/crates/$crate/out/rlib"); done
    built() { echo "$top/crates/$1/out/rlib/$1.rlib"; }
else
    for crate in $uses; do [ ! -d "$top/crates/$crate" ] || "$top/isotope" prove "$crate"; done
    words+=(-L "dependency=$top/build")
    built() { echo "$top/build/$1.rlib"; }
fi
for crate in $uses; do
    library=$(built "$crate")
    [ -e "$library" ] || library=$kit/rlibs/$crate.rlib
    words+=(--extern "$crate=$library")
done
cd "$top/crates/isotope_c"
"$kit/bin/rattle" build --crate-name isotope_c src/lib.rt "${words[@]}" --antt-project "$kit/rattle/logic/antt-project.json" \
    --logic-built "$kit/logic_built" --jobs "$(nproc)" --incremental "$archive.kept" --crate-type staticlib \
    --toolchain "$kit/toolchain" -o "$archive"
rt version > "$archive.kit"
