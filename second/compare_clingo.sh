#!/usr/bin/env bash
# Compares the readings of random books with the answer sets that clingo (Debian's package gringo)
# gives for the same rules. Usage: second/compare_clingo.sh SECOND [BOOKS]
# SECOND is the built program, BOOKS how many books (300). No part of the gate.
set -euo pipefail

second=${1:?usage: compare_clingo.sh SECOND [BOOKS]}
books=${2:-300}
command -v clingo >/dev/null || { echo "clingo is not installed (Debian: package gringo)"; exit 2; }
folder=$(mktemp -d)
trap 'rm -rf "$folder"' EXIT

# `0 if 3 and not 1` becomes `a(0) :- a(3), not a(1).`
to_clingo() {
  sed -E 's/ if / :- /; s/ and /, /g; s/\b([0-9]+)\b/a(\1)/g; s/$/./'
}

# One line for each set, its atoms ascending, the lines sorted.
sets_of_second() {
  grep -E '^[0-9]+:' | sed -E 's/^[0-9]+: ?//' | sort || true
}

sets_of_clingo() {
  awk 'wanted { print; wanted = 0 } /^Answer:/ { wanted = 1 }' | sed -E 's/a\(([0-9]+)\)/\1/g' |
    while read -r line; do tr ' ' '\n' <<<"$line" | sort -n | paste -sd ' '; done | sort
}

none=0 several=0 sets=0
for ((seed = 0; seed < books; seed++)); do
  "$second" random "$seed" >"$folder/book"
  "$second" words "$folder/book" | to_clingo >"$folder/program.lp"
  "$second" readings <"$folder/book" >"$folder/listing"
  sets_of_second <"$folder/listing" >"$folder/ours"
  clingo -n 0 --warn=none "$folder/program.lp" >"$folder/answers" || true
  sets_of_clingo <"$folder/answers" >"$folder/theirs"
  count=$(sed -nE 's/^Models *: ([0-9]+)$/\1/p' "$folder/answers")
  grep -q "^end $count tries" "$folder/listing" && cmp -s "$folder/ours" "$folder/theirs" || {
    echo "book $seed differs:"
    cat "$folder/program.lp" "$folder/listing" "$folder/answers"
    exit 1
  }
  sets=$((sets + count))
  if ((count == 0)); then none=$((none + 1)); elif ((count > 1)); then several=$((several + 1)); fi
done
echo "$books books agree with clingo: $sets answer sets, $several books with several, $none with none"
