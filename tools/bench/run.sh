#!/usr/bin/env bash
# Times the library against the Rust with the stand-ins of documents 01 and 02, same inputs, one run, both built for release; prints
# the tables of docs/PERFORMANCE.md.
#
#     tools/bench/run.sh [--source DIR] [--library DIR]
#
# The options are those of tools/comparison/run.sh.
set -euo pipefail
cd "$(dirname "$0")/../.."
. tools/built.sh
options "$@"
[ ${#others[@]} -eq 0 ] || { echo "run.sh: what is '${others[0]}'? See the first lines of tools/bench/run.sh" >&2; exit 2; }
archives
packages build -p bench
tools/target/release/bench
