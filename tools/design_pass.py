#!/usr/bin/env python3
"""Counts the places of docs/DESIGN-PASS.md in crates/*/src, each by a pattern.

    design_pass.py              the working tree
    design_pass.py COMMIT       that commit
    design_pass.py --list       the places of the working tree, one a line
"""
import re
import subprocess
import sys

# Point, what is counted, the pattern. A pattern is matched against a whole file, comments left out.
PATTERNS = [
    ("1a", "own enums", r"^(?:pub )?enum \w+"),
    ("1b", "structs with an answer or a flag and values beside it", r"^(?:pub )?struct \w+ \{[^}]*?\b(?:answer|passes|ended|whole): [^}]*\}"),
    ("1c", "a number compared, that stands for a kind, a stage, a status or an operation",
     r"(?:\b(?:kind|code|stage|status|n|due)|kind_due\(\w+\)|kind_of\([^)]*\)|status_at\([^)]*\)) (?:==|!=) \d+\b"),
    ("2a", "a cell read if it is there, written by hand", r"if [^{};]*? < (?:\w+\.len\(\)|16|32|64) \{\s*(?:Rank\()?\w+\[[^]]*\]\)?\s*\} else"),
    ("2b", "a cell set if it is there, written by hand", r"if \w+ < (?:\w+\.len\(\)|16|64) \{\s*\w+\[\w+\] = [^;]*;\s*\}"),
    ("2c", "functions over a number of two, four or eight bytes", r"^pub fn (?:put_)?u(?:16|32|64)(?:_at)?\("),
    ("2d", "answers told apart by a function of their own", r"^ *(?:pub )?fn (?:is_fine|is_accepted|is_taken|answer_to|say_text|say_written|is_end|is_same|has_more|has_failed|is_done|is_unread)\("),
    ("3a", "while loops", r"^ *while "),
    ("3b", "loops over indices that only index", r"for (\w+) in 0\.\.[^{]*\{(?:(?!\n    \}).)*?\[\1\]"),
    ("4", "the least of two, bools as numbers, equality and printing by hand",
     r"^ *(?:pub )?fn (?:least|at_most|plus|one_less|failure|flag|one_if|same|byte_of|print_field|print_text|print_tally)\("),
    ("5a", "parameters: the sheet's cells and its sizes", r"\bsheet: &\[u8\],\s*(?:\w+: [^,()]+,\s*)*?z: Sizes"),
    ("5b", "parameters: citations and outcomes (and ranks)", r"\bcites: &\[u16\],\s*good: &"),
    ("5c", "parameters: the three working buffers", r"\bcounts: &mut \[u32\],\s*table: &mut \[u8\],\s*order: &mut \[u16\]"),
    ("6a", "a buffer with a length beside it: parameters", r"\w+: &(?:mut )?\[\w+\],\s*n: (?:usize|u16|u8)\b"),
    ("6b", "a buffer with a length beside it: structs", r"struct \w+ \{\s*(?:pub )?count: \w+,\s*(?:pub )?\w+: \["),
    ("6c", "lists side by side: parameters", r"\b(?:free: &(?:mut )?\[u64\],\s*held|instances: &(?:mut )?\[u16\],\s*numbers|payers: &\[u16\],\s*debits)"),
    ("7", "a bool parameter that says which step to run", r"[(,]\s*(?:all|taken): bool"),
]


def files(commit):
    if commit:
        names = subprocess.run(["git", "ls-tree", "-r", "--name-only", commit, "crates"], capture_output=True, text=True, check=True).stdout.split()
        return {n: subprocess.run(["git", "show", f"{commit}:{n}"], capture_output=True, text=True, check=True).stdout for n in names if "/src/" in n}
    names = subprocess.run(["git", "ls-files", "crates"], capture_output=True, text=True, check=True).stdout.split()
    return {n: open(n, encoding="utf-8").read() for n in names if "/src/" in n}


def main():
    words = [w for w in sys.argv[1:] if not w.startswith("-")]
    texts = {n: re.sub(r"^ *//.*$|^ghost use.*$", "", t, flags=re.M) for n, t in files(words[0] if words else None).items()}
    for point, what, pattern in PATTERNS:
        found = [(n, t.count("\n", 0, m.start()) + 1) for n, t in sorted(texts.items()) for m in re.finditer(pattern, t, re.M | re.S)]
        print(f"{point:3} {len(found):4}  {what}")
        if "--list" in sys.argv:
            for name, line in found:
                print(f"          {name}:{line}")


main()
