#!/usr/bin/env bash
# Tests the comparison itself, without the library:
#
#     tools/comparison/self_test.sh [quick] [--source DIR] [--edits FILE]
#
# its parts by themselves (tests/parts.rs); then a library that answers by the published Rust (package stub), which must show no
# difference; then that library with each fault of faults.txt and each edit of edits.txt and reader_edits.txt put in (`quick`: not the
# edits; --edits: these in place of edits.txt), which must show one; and the desk over a library with a fault, which must say so.
set -euo pipefail
cd "$(dirname "$0")/../.."
here=tools/comparison
. tools/built.sh
options "$@"

quick=
edits=$here/edits.txt
set -- "${others[@]}"
while [ $# -gt 0 ]; do
  case $1 in
    --edits) edits=$2; shift 2 ;;
    quick) quick=yes; shift ;;
    *) echo "self_test.sh: what is '$1'? See the first lines of $here/self_test.sh" >&2; exit 2 ;;
  esac
done

# A build of its own: the comparison is linked with the stub as a shared library, which can be changed without linking again.
build=$PWD/tools/target/self_test
mkdir -p "$build/lib"
export CARGO_TARGET_DIR=$build
stub() {
  packages build -p stub "$@" && cp "$build/release/libstub.so" "$build/lib/stub.so" &&
    for name in riftkettle test_probes; do cp "$build/lib/stub.so" "$build/lib/lib$name.so"; done
}
stub
export RIFTKETTLE_LIB_DIR=$build/lib LD_LIBRARY_PATH=$build/lib
packages build -p comparison -p desk
packages test -p comparison --test parts
compare() {
  "$build/release/comparison" --program "$build/release/stub_program" "$@"
}
missed=0
found=0

# Runs the comparison, which must find a difference; what it prints is not shown.
must_differ() {
  local what=$1
  shift
  if compare "$@" > "$build/said" 2>&1; then
    echo "NOT FOUND: $what"
    missed=$((missed + 1))
  elif ! tail -n 1 "$build/said" | grep -q ' differ$'; then
    echo "FAILED: $what: $(tail -n 1 "$build/said")"
    missed=$((missed + 1))
  else
    found=$((found + 1))
  fi
}

compare | tail -n 1
while IFS=: read -r fault only; do
  case $fault in '#'*) continue ;; esac
  RIFTKETTLE_FAULT=$fault must_differ "fault $fault in $only" --only "$only"
done < "$here/faults.txt"

# A bank at its limit, which the library with that fault refuses: the desk's second reader does not, and status 3 says that they differ.
printf 'road length\n10\n\ngeom s x y hdg length kind k0 k1\n0 0 0 0 10 line 0 0\n\nbank start a b c d\n0 0.75 0 0 0\n\nsection start\n0\n' > "$build/bank"
"$build/release/desk" hex "$build/bank" > "$build/bank.job"
"$build/release/desk" check "$build/bank.job" > /dev/null
status=0
RIFTKETTLE_FAULT=bank "$build/release/desk" check "$build/bank.job" > "$build/said" 2>&1 || status=$?
if [ "$status" -eq 3 ]; then
  found=$((found + 1))
else
  echo "NOT SAID: desk check over the fault bank: status $status: $(cat "$build/said")"
  missed=$((missed + 1))
fi

# Puts each edit of a file (old ==> new) into a copy of one of the second texts, which the stub then answers by:
# put_edits EDITS FILE VARIABLE, then the words for the comparison.
put_edits() {
  local edits=$1 file=$2 variable=$3 text line old new without
  shift 3
  text=$(cat "tools/second/src/$file")
  while IFS= read -r line; do
    case $line in '#'*) continue ;; esac
    old=${line%% ==> *} new=${line##* ==> }
    old=${old//'\n'/$'\n'} new=${new//'\n'/$'\n'}
    without=${text//"$old"/}
    [ $((${#text} - ${#without})) -eq ${#old} ] || fail "$edits: this stands not once in $file: $old"
    printf '%s\n' "${text/"$old"/"$new"}" > "$build/$file"
    export "$variable=$build/$file"
    RUSTFLAGS="-A warnings" stub 2> "$build/said" || fail "$edits: '$line' does not build: $(cat "$build/said")"
    must_differ "edit of $file: $line" "$@"
  done < "$edits"
  unset "$variable"
}

if [ -z "$quick" ]; then
  put_edits "$edits" admission.rs EDITED_ADMISSION --only limits --steps 8000
  put_edits "$here/reader_edits.txt" reader.rs EDITED_READER --only read
fi
echo "self test: $found faults found, $missed not"
[ $missed -eq 0 ]
