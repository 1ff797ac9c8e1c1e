#!/usr/bin/env bash
# Runs the program `surface` on every job of examples/jobs and compares what it writes with the file beside it. One command, from any
# folder, after `rt ci`, or `rt run` in crates/surface:
#
#     examples/jobs/run.sh [PROGRAM]
#
#   PROGRAM   the program to run (default crates/surface/out/surface)
#
# NAME.job and NAME.out are made by tools/lists/run.sh outputs, NAME.out by a second program. The last line says how many examples there are
# and how many differ. Status 0: none differ.
set -euo pipefail
cd "$(dirname "$0")/../.."
program=${1:-crates/surface/out/surface}
[ -x "$program" ] || { echo "$0: no program $program: 'rt run' in crates/surface builds it" >&2; exit 2; }

count=0
differ=0
for job in examples/jobs/*.job; do
  count=$((count + 1))
  if ! "$program" < "$job" | cmp - "${job%.job}.out" >&2; then differ=$((differ + 1)); fi
done
echo "$count examples, $differ differ"
[ "$differ" = 0 ] && [ "$count" -gt 0 ]
