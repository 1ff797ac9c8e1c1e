# Reads the names of must-fail edits, crates/CRATE/must-fail/NAME.edit, a line each (edits=yes), and then what `rt ci` or `rt must-fail` said
# (edits=), whose line for an edit has the first fact that was refused. It names each edit that shows nothing: one that was not refused, or
# refused for its shape alone, since a proof file names what the edit took away, with no fact refused beside it. One that the prover gave no
# verdict on within its limits is refused too, and says less: it is named, and counted apart.
function tells(what) { print edit ": " what; }
edits { if ($0 != "") { split($0, part, "/"); wanted[part[2] "/" part[4]] = $0; count++ } next }
/: BAD EDIT: / && !/^rt: must-fail / { print; bad = 1; next }
!/^rt: must-fail / { next }
{
  edit = $3
  sub(/:$/, "", edit)
  if (!(edit in wanted)) next
  of_shape = /: refused, as it must be \(only because a proof file names /
  at_limit = /: refused, as it must be \(only by a limit of the prover/
  if (/: refused, as it must be/ && !of_shape) { refused++; limits += at_limit; delete wanted[edit] }
  if (of_shape) { tells("refused for its shape alone, so it shows nothing: " $0); shown[edit] = 1; bad = 1 }
  if (at_limit) tells("refused only by a limit of the prover")
}
END {
  for (edit in wanted) {
    bad = 1
    if (!(edit in shown)) tells("not refused")
  }
  print count + 0 " must-fail edits, " refused + 0 " refused for a fact" (limits ? ", " limits " of them only by a limit of the prover" : "")
  exit bad
}
