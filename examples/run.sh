#!/usr/bin/env bash
# Builds and runs the examples in C, C++ and Rust, those that there is a compiler for, and compares what they write. One command, from
# any folder:
#
#     examples/run.sh [DIR]
#
#   DIR  the folder with libriftkettle.a, or a shared libriftkettle.so (default: crates/riftkettle/out of this checkout)
#
# A line for each example; the last line says how many were run and how many differ. Status 0: none differ.
set -euo pipefail
folder=$(realpath -m "${1:-$(dirname "$0")/../crates/riftkettle/out}")
cd "$(dirname "$0")/.."
build=target/examples
library=$folder/libriftkettle.a
[ -f "$library" ] || library=$folder/libriftkettle.so
[ -f "$library" ] || { echo "examples/run.sh: no libriftkettle.a in $folder: make builds it" >&2; exit 1; }
export RIFTKETTLE_LIB_DIR=$folder LD_LIBRARY_PATH=$folder${LD_LIBRARY_PATH:+:$LD_LIBRARY_PATH}
mkdir -p "$build"
run=0
differ=0

# A compiler, the file that it compiles and the place of the program.
compile() {
  case $1 in
    gcc) gcc -std=c11 -O2 -Wall -Wextra -Werror -pedantic -Iinclude -o "$3" "$2" "$library" ;;
    g++) g++ -std=c++17 -O2 -Wall -Wextra -Werror -pedantic -Iinclude -o "$3" "$2" "$library" ;;
    cargo) cargo build --quiet --offline --manifest-path "$2" --target-dir "$build/rust" && cp "$build/rust/debug/example" "$3" ;;
  esac
}

# The compiler, its file, and the file with what the program is to write.
example() {
  local program=$build/${2//\//_}.program
  if ! command -v "$1" > /dev/null; then
    echo "$2: not run, since there is no $1"
    return
  fi
  run=$((run + 1))
  if compile "$1" "$2" "$program" && "$program" > "$program.out" && diff "$3" "$program.out" >&2; then
    echo "$2: built by $1, writes what $3 holds"
  else
    echo "$2: differs from $3, or failed"
    differ=$((differ + 1))
  fi
}

example gcc examples/c/example.c examples/stdout
example gcc examples/c/by_hand.c examples/c/by_hand.stdout
example gcc examples/c/dots.c examples/c/dots.stdout
example gcc examples/c/track.c examples/c/track.stdout
example g++ examples/cpp/example.cpp examples/stdout
example cargo examples/rust/Cargo.toml examples/stdout
echo "$run examples, $differ differ"
[ "$differ" -eq 0 ]
