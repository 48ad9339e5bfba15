#!/bin/sh
# Builds the program work_bench, and the work of its diagrams over BuDDy, with full optimisation, runs
# them side by side, and prints the ratio of time and of instructions, and where our instructions go.
# Wants rt, gcc, libbdd-dev and valgrind (with callgrind_annotate).
# Usage: bench/run.sh [queens|carry|counter] [N] [NODES]
# NODES is the room of BuDDy's node table: enough that nothing is collected, so that it makes as many
# nodes as bdd_ops, which collects nothing. Ours is measured twice: with tables that grow as nodes and
# answers come, and with the same room, so that neither makes tables within the operations.
set -e
cd "$(dirname "$0")/.."
kind=${1:-queens}
n=${2:-8}
nodes=${3:-2000000}
work=$(mktemp -d)
trap 'rm -rf "$work"' EXIT

# rt builds a proved program with clang at -O3
(cd crates/work_bench && rt run -- diagrams "$kind" 4 >/dev/null)
ours=crates/work_bench/out/work_bench
gcc -O3 -o "$work/buddy" bench/buddy.c -lbdd

grep -m 1 'model name' /proc/cpuinfo
echo "processors: $(nproc)"
"$ours" diagrams "$kind" "$n" | sed -n 1p
"$work/buddy" "$kind" "$n" "$nodes" | sed -n 1p

ratio() { echo "$1 $2" | awk '{ printf "%.2f", $1 / $2 }'; }
time_of() { "$@" | awk '/microseconds/ { print $1 }'; }
# the least of nine runs of each, in turn: other work on the machine makes a run only longer
least_a= least_r= least_b=
for run in 1 2 3 4 5 6 7 8 9; do
    a=$(time_of "$ours" diagrams "$kind" "$n")
    r=$(time_of "$ours" diagrams "$kind" "$n" "$nodes")
    b=$(time_of "$work/buddy" "$kind" "$n" "$nodes")
    [ -n "$least_a" ] && [ "$least_a" -le "$a" ] || least_a=$a
    [ -n "$least_r" ] && [ "$least_r" -le "$r" ] || least_r=$r
    [ -n "$least_b" ] && [ "$least_b" -le "$b" ] || least_b=$b
done
# tell OURS WITH_ROOM THEIRS WHAT: the numbers, with both ratios
tell() {
    echo "$4: $1 and $3, ratio $(ratio "$1" "$3"); with the same room $2, ratio $(ratio "$2" "$3")"
}
tell "$least_a" "$least_r" "$least_b" "microseconds of processor time of the operations"

profile() {
    to=$1
    shift
    valgrind --tool=callgrind --callgrind-out-file="$to" "$@" >/dev/null 2>&1
    callgrind_annotate --inclusive=yes --threshold=100 "$to" >"$to.inclusive"
    callgrind_annotate --threshold=100 "$to" >"$to.own"
}
# The instructions of the first line that has these words: with all that was called, or its own.
of() { grep -m 1 -e "$2" "$1" | awk '{ gsub(",", "", $1); print $1 }'; }
profile "$work/a" "$ours" diagrams "$kind" "$n"
profile "$work/r" "$ours" diagrams "$kind" "$n" "$nodes"
profile "$work/b" "$work/buddy" "$kind" "$n" "$nodes"
whole() { of "$work/$1.inclusive" 'PROGRAM TOTALS'; }
tell "$(whole a)" "$(whole r)" "$(whole b)" "instructions, whole programs"
# literals are made outside the operations, in far less than a hundredth of the instructions, and so is
# the counter's relation: its sets and its preimages are counted. An operation begins a round of the
# cache, in which its slots may grow: that is counted too.
products() { of "$work/$1.inclusive" 'quantification::expand::<#[0-9a-f]*> '; }
operations() {
    if [ "$kind" = counter ]; then
        echo $(($(products "$1") + $(of "$work/$1.inclusive" 'diagrams::carried::<#[0-9a-f]*> ')))
    else
        of "$work/$1.inclusive" 'Engine::operate::<#[0-9a-f]*> '
    fi
}
b=$(of "$work/b.inclusive" ":$kind[ .]")
tell "$(operations a)" "$(operations r)" "$b" "instructions of the operations"
if [ "$kind" = counter ]; then
    b=$(of "$work/b.inclusive" ':bdd_appex ')
    tell "$(products a)" "$(products r)" "$b" "of these, the relational products"
fi
echo "of BuDDy's, before the operations: $(of "$work/b.inclusive" ':bdd_init '), after them: $(of "$work/b.inclusive" ':bdd_done ')"
echo "of ours, after them: $(of "$work/a.inclusive" 'LruCache::drop')"
echo "instructions of each function of ours with the same room, its own:"
grep -E '^ *[0-9,]+ \( *[0-9.]+%\)' "$work/r.own" | sed 's/\[[^]]*\]$//' | head -12
echo "and with tables that grow:"
grep -E '^ *[0-9,]+ \( *[0-9.]+%\)' "$work/a.own" | sed 's/\[[^]]*\]$//' | head -18
echo "the same with all that it calls:"
grep -E 'Engine::(note|add|make)|Memo::(find|begin|insert|widen)|Nodes::(find|insert)|HashMap::grow|IndexMap::grow|LruCache::drop|KeyHash|rattle_(de)?alloc' \
    "$work/a.inclusive" | sed 's/\[[^]]*\]$//'
echo "instructions of each function of BuDDy, its own:"
grep -E '^ *[0-9,]+ \( *[0-9.]+%\)' "$work/b.own" | sed 's/\[[^]]*\]$//' | head -8
