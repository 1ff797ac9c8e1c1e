#!/usr/bin/env bash
# Compares the library with the published Rust, bit for bit. One command, from any folder:
#
#     tools/comparison/run.sh [full] [--source DIR] [--library DIR] [--program FILE] [--seed N] [--only NAME].. [--steps N]
#
#   full       the full form (minutes); without it the short one (seconds)
#   --source   the folder with the published road.rs, coords.rs and geometry.rs, or with src/ that holds them (default ../shared/docs/src)
#   --library  the folder of the library to compare and of the functions inside it, libriftkettle.a and libtest_probes.a (default:
#              those of this checkout, built by `rt lib` in crates/riftkettle and crates/test_probes)
#   --program  the program `surface` (default: crates/surface/out/surface, built by `rt run` in crates/surface)
#   --seed     another run of random inputs (default 1); --only, comparisons by the start of their name, as often as there are
#              names; --steps, how many inputs of each
#
# The last line says how many results were compared and how many differ. Status 0: none differ.
set -euo pipefail
cd "$(dirname "$0")/../.."
. tools/built.sh
options "$@"

surface=
pass=()
set -- "${others[@]}"
while [ $# -gt 0 ]; do
  case $1 in
    full) pass+=(full); shift ;;
    --program) surface=$2; shift 2 ;;
    --seed | --only | --steps) pass+=("$1" "$2"); shift 2 ;;
    *) echo "run.sh: what is '$1'? See the first lines of tools/comparison/run.sh" >&2; exit 2 ;;
  esac
done

archives
if [ -z "$surface" ]; then
  program
  surface=crates/surface/out/surface
fi
[ -x "$surface" ] || fail "no program $surface"
packages build -p comparison
tools/target/release/comparison --program "$(realpath "$surface")" "${pass[@]}"
