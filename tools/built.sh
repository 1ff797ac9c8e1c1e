# What the scripts of comparison, bench, lists share: sourced, from the repository's root.
#
#     options ARGUMENTS  takes --source DIR (the published Rust) and --library DIR (libriftkettle.a and libtest_probes.a) from the
#                        arguments; the others are in the array `others` afterwards
#     archives           the archives of the crates `riftkettle` and `test_probes`, built by `rt lib` and left in crates/NAME/out, where
#                        bindings/rust and tools/archive look for them, or those that --library names
#     program            the program `surface`, built and tried on its own input by `rt run`: crates/surface/out/surface
#     packages WORDS     cargo over the workspace, offline, for release
fail() {
  echo "$0: $*" >&2
  exit 1
}

options() {
  others=()
  library=
  while [ $# -gt 0 ]; do
    case $1 in
      --source | --library) [ $# -ge 2 ] || { echo "$0: $1 needs a folder" >&2; exit 2; } ;;&
      --source) PUBLISHED_SOURCE=$(realpath "$2"); export PUBLISHED_SOURCE; shift 2 ;;
      --library) library=$2; shift 2 ;;
      *) others+=("$1"); shift ;;
    esac
  done
}

archives() {
  local name
  if [ -z "$library" ]; then
    unset RIFTKETTLE_LIB_DIR
    for name in riftkettle test_probes; do
      (cd "crates/$name" && rt lib) >&2 || fail "rt lib failed in crates/$name"
      echo "library: $PWD/crates/$name/out/lib$name.a" >&2
    done
  else
    RIFTKETTLE_LIB_DIR=$(realpath "$library")
    export RIFTKETTLE_LIB_DIR
    echo "library: $RIFTKETTLE_LIB_DIR" >&2
  fi
}

program() {
  (cd crates/surface && rt run < stdin | cmp - stdout) >&2 || fail "rt run failed in crates/surface"
}

packages() {
  local command=$1
  shift
  cargo "$command" --manifest-path tools/Cargo.toml --offline --quiet --release "$@"
}
