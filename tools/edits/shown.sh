#!/usr/bin/env bash
# Reads what a command that tries all must-fail edits, `rt ci` or `rt must-fail`, said of crates/*/must-fail/*.edit of the folder that it is
# called in, which is the repository's root: each edit must be refused there, for a fact (facts.awk).
#
#     tools/edits/shown.sh SAID
#
#   SAID  the file with what the command wrote to standard output
#
# The last line counts them. Status 0: each is refused for a fact.
set -euo pipefail
shopt -s nullglob
printf '%s\n' crates/*/must-fail/*.edit | awk -f "$(dirname "$0")/facts.awk" edits=yes - edits= "$1"
