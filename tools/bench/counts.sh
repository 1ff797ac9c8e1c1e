#!/usr/bin/env bash
# Instructions a call of each case of tools/bench/src/surface.rs and dots.rs, by valgrind: unlike times they come out the same on a machine at work.
# Run after tools/bench/run.sh, which builds the program.
#
#     tools/bench/counts.sh [CASE ..]
set -euo pipefail
cd "$(dirname "$0")/../.."
bench=tools/target/release/bench

# The instructions of a run that makes the calls of a side so many times.
instructions() {
  valgrind --tool=callgrind --callgrind-out-file=/dev/null "$bench" "$@" 2>&1 | sed -n 's/.*Collected : //p'
}

mapfile -t names < <("$bench" 0 0 0)
echo '| What | ours | its check | ours less the check | Rust with stand-ins | ratio | Rust with its own functions |'
echo '|---|---|---|---|---|---|---|'
for case in ${@:-${!names[@]}}; do
  read -r calls what <<< "${names[case]}"
  a=()
  for side in 0 1 2 3; do
    a+=($((($(instructions "$case" $side 3) - $(instructions "$case" $side 1)) / (2 * calls))))
  done
  less=$((a[0] - a[1]))
  echo "| $what | ${a[0]} | ${a[1]} | $less | ${a[2]} | $(printf '%d.%02d' $((less / a[2])) $((less * 100 / a[2] % 100))) | ${a[3]} |"
done
