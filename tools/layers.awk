# Tests crates.txt: a heading '# ---- N name' begins layer N, and a crate uses only crates that stand above it, of its own layer or of a
# lower one. `std` may be used anywhere and is never listed; no other library of the kit is used.
/^# ---- [0-9]+ / { layer = $3 + 0; next }
{ sub(/#.*/, ""); colon = index($0, ":") }
colon {
  # the words before the colon: the crate, and `staticlib` after a static library
  split(substr($0, 1, colon - 1), said, " ")
  crate = said[1]
  count = split(substr($0, colon + 1), used, " ")
  for (i = 1; i <= count; i++) {
    if (!(used[i] in of)) { print "crates.txt: " crate " uses " used[i] ", which does not stand above it"; bad = 1 }
    else if (of[used[i]] > layer) { print "crates.txt: " crate " of layer " layer " uses " used[i] " of layer " of[used[i]]; bad = 1 }
  }
  of[crate] = layer
}
END { exit bad }
