#!/usr/bin/env bash
# Makes the lists that the test programs replay anew, with what the programs must print. One command, from any folder:
#
#     tools/lists/run.sh [--source DIR] NAME ..
#
#   NAME       vectors, admission, jobs, roads, outputs, tracks or dots: that of the crate test_NAME; with outputs also examples/jobs
#   --source   the folder with the published road.rs, coords.rs and geometry.rs, or with src/ that holds them (default
#              ../shared/docs/src); roads, outputs, tracks and dots are what the published Rust answers
#
# A list is the same at every run.
set -euo pipefail
cd "$(dirname "$0")/../.."
. tools/built.sh
options "$@"

for name in "${others[@]}"; do
  case $name in
    vectors | admission | jobs | roads | outputs | tracks | dots) ;;
    *) echo "run.sh: what is '$name'? See the first lines of tools/lists/run.sh" >&2; exit 2 ;;
  esac
done
packages build -p lists --features published
for name in "${others[@]}"; do
  make=tools/target/release/$name
  to=crates/test_$name
  case $name in
    vectors | admission | jobs) "$make" > "$to/stdin" 2> "$to/stdout" ;;
    roads | tracks | dots) "$make" "$to/stdin" "$to/stdout" ;;
    outputs) "$make" "$to/stdin" "$to/stdout" examples/jobs ;;
  esac
done
