#!/bin/sh
# Runs a task: run_task.sh PROGRAM. A line on standard input has its key, the node limit, seconds and kilobytes (0 is no limit)
# and the text (gzip, base64). Puts an archive: `put` is what the program put, `proof` its proofs, `end` how it ended.
program=$(readlink -f "$1")
room=$(mktemp -d) || exit 1
trap 'rm -rf "$room"' EXIT
set -- $(cat)
nodes=$2
seconds=$3
memory=$4
cd "$room" || exit 1
printf '%s' "$5" | base64 -d | gzip -dc >model.smv || exit 1
: >proof
limit=
[ "$seconds" -eq 0 ] || limit="timeout -k 5 $seconds"
begun=$(date +%s%N)
(
  [ "$memory" -eq 0 ] || ulimit -v "$memory"
  exec $limit "$program" check --nodes "$nodes" --proof proof -- model.smv >put 2>/dev/null </dev/null
)
status=$?
[ "$seconds" -eq 0 ] || [ "$status" -ne 124 ] || status=over
printf 'status %s\nmilliseconds %s\n' "$status" $((($(date +%s%N) - begun) / 1000000)) >end
tar -czf - put proof end
