#!/usr/bin/env bash
# The longer list, before a landing: the whole self test of the comparison, where the published Rust is at hand, and the must-fail
# edits that the gate leaves out, crates/NAME/must-fail-long/*.edit. One command, from any folder:
#
#     tools/edits/run.sh
#
# The edits are tried on a copy of what is committed, in which these edits take the place of the gate's. It begins with what `rt check` kept
# of the same crates in this checkout. The last line says how many were refused. Status 0: all of them, each for a fact.
set -euo pipefail
cd "$(dirname "$0")/../.."
if [ -f ../shared/docs/src/src/road.rs ]; then tools/comparison/self_test.sh; fi
copy=$(mktemp -d)
trap 'rm -rf "$copy"' EXIT
mkdir "$copy/tree"
git archive HEAD | tar -x -C "$copy/tree"
for crate in "$copy"/tree/crates/*; do
  rm -rf "$crate/must-fail"
  if [ -d "$crate/must-fail-long" ]; then mv "$crate/must-fail-long" "$crate/must-fail"; fi
done
cd "$copy/tree"
status=0
rt must-fail | tee "$copy/said" || status=$?
tools/edits/shown.sh "$copy/said" || status=1
exit "$status"
