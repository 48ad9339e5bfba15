#!/usr/bin/env bash
# What testing proofs takes beside finding them: the instructions of `recheck`, as a ratio to those of `check`, of the proved
# program. Each model's proofs are written first, and must be accepted.
#
#   bench/recheck.sh [FILE|N]..    files of models, and rings of N inverters; without words the examples and rings of 5 to 25
#
# Needs a proved build (./smv --proved check FILE) and valgrind, whose callgrind counts the instructions.
set -u
cd "$(dirname "$0")/.." || exit 1
. tools/builds.sh
built=$out/$(proved_name)
if [ ! -x "$built" ]; then
  echo "no proved build stands: ./smv --proved check examples/swap.smv makes one" >&2
  exit 1
fi
room=$(mktemp -d)
trap 'rm -rf "$room"' EXIT

# instructions WORD..: those of a call of the program with these words.
instructions() {
  valgrind --tool=callgrind --callgrind-out-file=/dev/null "$built" "$@" 2>&1 >/dev/null |
    sed -n 's/.*Collected : //p'
}

[ $# -gt 0 ] || set -- examples/*.smv 5 7 9 15 25
printf '%-36s %14s %14s %14s %8s\n' model check 'check --proof' recheck ratio
for model in "$@"; do
  file=$model
  if [[ $model =~ ^[0-9]+$ ]]; then
    file=$room/ring.smv
    "$built" gen "$model" >"$file"
    model="ring of $model"
  fi
  "$built" check "$file" --proof "$room/proof" >"$room/report" 2>/dev/null
  "$built" recheck "$file" "$room/proof" >"$room/answers" 2>/dev/null
  if [ $? -ne 0 ]; then
    echo "$model: the proofs are not accepted"
    continue
  fi
  found=$(instructions check "$file")
  written=$(instructions check "$file" --proof "$room/proof")
  tested=$(instructions recheck "$file" "$room/proof")
  printf '%-36s %14s %14s %14s %8s\n' "$model" "$found" "$written" "$tested" \
    "$(awk "BEGIN { printf \"%.2f\", $tested / $found }")"
done
