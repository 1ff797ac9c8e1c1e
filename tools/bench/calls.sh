#!/usr/bin/env bash
# How often a call of each case of tools/bench/src/surface.rs and dots.rs calls the functions whose names end in FUNCTION, by valgrind,
# which sees those that the compiler left as functions: `sin_cos`, the sine pair, is one on both sides.
# Run after tools/bench/run.sh, which builds the program.
#
#     tools/bench/calls.sh FUNCTION [CASE ..]
set -euo pipefail
cd "$(dirname "$0")/../.."
bench=tools/target/release/bench
command -v valgrind > /dev/null || { echo "calls.sh: valgrind is not here" >&2; exit 1; }
function=$1
shift
seen=$(mktemp)
trap 'rm -f "$seen"' EXIT

# The calls of the function in a run that makes the calls of a side so many times.
calls() {
  valgrind --tool=callgrind --callgrind-out-file="$seen" "$bench" "$@" > /dev/null 2>&1
  awk -v function_name="$function\$" '
    /^c?fn=/ {
      id = $1; sub(/^c?fn=/, "", id)
      if (NF > 1) name[id] = $0
      if (/^cfn=/) called = id
    }
    /^calls=/ { sub(/^calls=/, "", $1); calls[called] += $1 }
    END { for (id in calls) if (name[id] ~ function_name) sum += calls[id]; print sum + 0 }' "$seen"
}

mapfile -t names < <("$bench" 0 0 0)
echo '| What | ours | Rust with stand-ins |'
echo '|---|---|---|'
for case in ${@:-${!names[@]}}; do
  read -r made what <<< "${names[case]}"
  a=()
  for side in 0 2; do
    more=$((($(calls "$case" $side 3) - $(calls "$case" $side 1)) * 100 / (2 * made)))
    a+=("$((more / 100)).$(printf '%02d' $((more % 100)))")
  done
  echo "| $what | ${a[0]} | ${a[1]} |"
done
