#!/usr/bin/env python3
"""Counts, in crates/*/src of a tree, the places that docs/DESIGN-PASS.md speaks of, point by point.

usage: tools/places.py [TREE] [--list POINT]     TREE is a checkout (default: this one); --list prints the places of one count

What each count looks for is said beside it. A count is a search by text: what it finds is a place to look at, and the page says what became of it.
"""
import re, subprocess, sys, tempfile, os, shutil

def sources(tree):
    names = subprocess.run(["git", "-C", tree, "ls-files", "crates/*/src/*.rt"], capture_output=True, text=True).stdout.split()
    return {n: open(os.path.join(tree, n)).read() for n in names}

# name, what it looks for, pattern (over the whole file; ^ and $ by line)
LOOKS = [
    ("1 enums", "an enum of the repository's own with a case for a value and one for none or for a refusal", r"^(?:pub(?:\(crate\))? )?enum \w+ \{(?:(?!^\}).)*?\b(?:Refused|Nothing|Broken)\b"),
    ("1 flags", "a struct's flag that says whether the rest means anything", r"^\s+(?:pub(?:\(crate\))? )?(?:good|there|fresh): bool,"),
    ("1 sentinels", "a number that stands for none, tested or made", r"\bNO_COLUMN\b|\.end == 0|\bline_of\([^)]*\) != 0|number != 0|number == 1|return Digits|\b16 <= d\b|\bstarted == 0"),
    ("1 codes", "a constant that numbers a kind, a rule or a part", r"^(?:pub(?:\(crate\))? )?const (?:\w+_(?:TABLE|RULE|KINDS)|NUMBER|WHOLE|BITS|SIDES|TERMS|FIRST_NUMBER|NUMBERS_A_LINE|FIRST_WORD|WORDS_A_LINE): (?:u8|usize) ="),
    ("3 loops", "a loop that is no `for`", r"^\s*(?:while|loop)\b"),
    ("4 numbers", "a refusal turned to its number by a function of its own", r"refusals::number\(|^pub fn number\(r: Refusal"),
    ("4 copies", "a struct copied to a variable so as to set a field", r"let mut r = \w+;"),
    ("5 road", "the two slices of a road as two parameters", r"words: &(?:mut )?\[u16\],\s*numbers: &(?:'a )?(?:mut )?\[f64\]"),
    ("5 lane", "section, side and place as three parameters", r"section: usize,(?:\s*(?:s|t|tangent): f64,)*\s*right: bool,\s*k: usize"),
    ("5 parts", "a slice that means a list of records, its length divided", r"\blen(?:\(\))? / (?:3|4|5|HEIGHT_STRIDE|CUBIC_STRIDE|SAMPLE_STRIDE)\b"),
    ("6 tables", "an array over tables, rules or lists beside others like it", r"^(?:pub(?:\(crate\))? )?const \w+: \[\w+; (?:TABLE_COUNT|LIST_COUNT|RANGES|COLUMNS_MOST)\]"),
    ("6 buffers", "a slice with how much of it is held beside it", r"text: &(?:mut )?\[u8\],\s*held: usize|out: &mut \[u8\],\s*(?:at|from): usize"),
    ("7 steps", "a match or a chain of tests on a letter, a rule, a part or a kind by number", r"match (?:letter|part|kind|rule|table) \{|if (?:letter|rule|kind) == "),
]

def main():
    args = [a for a in sys.argv[1:] if not a.startswith("--")]
    tree = args[0] if args and os.path.isdir(args[0]) else "."
    show = sys.argv[sys.argv.index("--list") + 1] if "--list" in sys.argv else None
    files = sources(tree)
    for name, what, pattern in LOOKS:
        found = []
        for path, text in files.items():
            for m in re.finditer(pattern, text, re.M | re.S):
                at = m.start() + len(m.group(0)) - len(m.group(0).lstrip())
                found.append((path, text.count("\n", 0, at) + 1))
        print(f"{name}: {len(found)}  ({what})")
        if show and name.startswith(show):
            for path, line in found:
                print(f"    {path}:{line}")

main()
