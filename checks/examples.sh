#!/usr/bin/env bash
# The examples are cases: each script of examples/ and its replies are the two sides of the rows of the case of its name in
# crates/case_tests/data/examples.cases, which the gate runs. Its status is 1 where one differs, or has no case.
cd "$(dirname "$0")/.." || exit 1
cases=crates/case_tests/data/examples.cases
status=0

# Prints one side of the rows of a case, with its texts that stand many times.
side() {
  awk -v name="$1" -v reply="$2" '
    function spelled(text,   from, inside, many, out) {
      while ((from = match(text, /\{[^{}]*\*[0-9]+\}/)) > 0) {
        inside = substr(text, from + 1, RLENGTH - 2)
        split(inside, many, "*")
        out = out substr(text, 1, from - 1)
        for (i = 0; i < many[2]; i++) out = out many[1]
        text = substr(text, from + 2 + length(inside))
      }
      return out text
    }
    /^case / { here = $2 == name }
    here && /^  / {
      row = substr($0, 3)
      at = substr(row, 1, 3) == "-> " ? -3 : index(row, " -> ") - 1
      if (reply) { if (at != -1) print spelled(substr(row, at == -3 ? 4 : at + 5)) }
      else if (at != -3) print spelled(at == -1 ? row : substr(row, 1, at))
    }
  ' "$cases"
}

for script in examples/*.script; do
  name=$(basename "$script" .script)
  side "$name" 0 | cmp - "$script" || status=1
  side "$name" 1 | cmp - "examples/$name.replies" || status=1
done
for name in $(sed -n 's/^case //p' "$cases"); do
  [ -e "examples/$name.script" ] || { echo "examples/$name.script is missing"; status=1; }
done
# each file of cases is one that the program is given
diff <(LC_ALL=C sort crates/case_tests/args) <(cd crates/case_tests/data && LC_ALL=C ls) || status=1
exit $status
