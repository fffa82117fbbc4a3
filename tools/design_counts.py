#!/usr/bin/env python3
"""design_counts.py [--list]: counts in crates/*/src the places that docs/DESIGN-PASS.md speaks of, point by point; with --list, where they are.

The counts go by text: a place that is counted need not be wrong. A place that stays has its reason in a comment that begins with `// Kept`, above it or above
the first of several alike; the second number counts the places in whose file no such comment stands above them.
"""
import pathlib
import re
import sys

top = pathlib.Path(__file__).resolve().parent.parent

# a line of the point, a pattern, and whether it may go over lines
PATTERNS = [
    ("1 enums with a variant for a refusal", r"^    Refused\(Refusal\),", False),
    ("1 other enums of the shape of Option or Result", r"pub enum (Given|Ran|Code|Part|StepAnswer) \{", False),
    ("1 a flag with a value beside it", r"^    pub (levels|listed|editing|room): bool,", False),
    ("1 an answer beside a record", r"^    pub answer: ", False),
    ("1 numbers for kinds", r"^    (?:pub )?(which|function|way): u8,", False),
    ("2 functions named by a size", r"fn \w*_(?:odd_)?(?:2|4|8|16|32)q?(?:_thin|_wide)?[(<]|fn l\d+\w*[(<]", False),
    ("2 functions named by a width", r"fn \w*(?:i16|i32|scalar16|plain16|_wide|invert_16|invert_32)[(<]", False),
    ("2 functions with and without a list", r"fn \w*_scaled\w*[(<]", False),
    ("3 while loops", r"^\s*while ", False),
    ("4 copying, limits and least by hand", r"fn (?:least|copy\w*|same\w*|entries_of|magnitude|limited\w*|at_least|capped_sum|clip3|one_more)[(<]", False),
    ("5 three buffers of a block together", r"coeff: &(?:mut )?\[i32\],\s*inter: &mut \[i32\],\s*residual: &mut \[i32\]", True),
    ("5 depth and flag together", r"bit_depth: u8,\s*extended_precision: bool", True),
    ("5 list and DC together", r"list: &\[u8\],\s*dc: u8", True),
    ("6 an array with its length beside it", r"pub bytes: \[u8; \d+\],\s*pub end: usize", True),
    ("6 parallel slices of edits", r"rows: &\[usize\],\s*columns: &\[usize\],\s*values: &\[i32\]", True),
    ("6 an array that stands for none", r"let mut none = \[", False),
    ("7 a flag that says what to run", r"^\s*(?:narrow|wide|skip): bool,|[(,] ?(?:narrow|wide|skip): bool", False),
]


def main():
    files = [p for p in sorted(top.glob("crates/*/src/**/*.rt"))]
    for name, pattern, over in PATTERNS:
        found, bare = [], 0
        for p in files:
            text = p.read_text(encoding="utf-8")
            kept = text.find("// Kept")
            for m in re.finditer(pattern, text, 0 if over else re.M):
                reason = 0 <= kept < m.start()
                bare += not reason
                found.append(f"{p.relative_to(top)}:{text.count(chr(10), 0, m.start()) + 1}{'' if reason else '   no reason above it'}")
        print(f"{len(found):5} {bare:5}  {name}")
        if "--list" in sys.argv[1:]:
            for place in found:
                print(f"         {place}")
    for what, pattern in (("Answers.antt", "crates/*/proofs/**/Answers.antt"), ("Invariants.antt", "crates/*/proofs/**/Invariants.antt"), ("lemma files", "crates/*/proofs/*.antt")):
        lines = [len(p.read_text(encoding="utf-8").splitlines()) for p in top.glob(pattern) if what != "lemma files" or p.name != "Lib.antt"]
        print(f"{len(lines):5}        8 {what}, {sum(lines)} lines")


if __name__ == "__main__":
    main()
