#!/usr/bin/env python3
"""The definitions that promises rest on, counted file by file.

    trusted_text.py            prints the tables
    trusted_text.py --write    writes them into docs/generated/trusted-text.md
    trusted_text.py --check    compares them with that file

Roots are the contracts (`requires`, `ensures`, and of an `impl From` its law) of the crates that a user calls, and the claim of demand 3. From there every
definition of `specs/` that a definition names is followed. Lines are counted without comments, `use` lines and empty lines."""
import glob
import os
import re
import sys

ROOT = os.path.join(os.path.dirname(os.path.abspath(__file__)), "../..")
sys.path.insert(0, os.path.join(ROOT, "tests"))
import generated  # noqa: E402

TABLE = "docs/generated/trusted-text.md"
GROUPS = [
    ("demand 3", [("demand", "Claim", "Demand")], []),
    ("the bar and the global log, and the comparison of pairs", [("ordering", "Claim", "LogRules"), ("ordering", "Claim", "PairRules")], []),
    ("the share", [("escrow", "Claim", "ShareRules")], []),
    ("the calls for loading, offers and readings", [], ["state", "offers", "readings", "account_records"]),
    ("the text of a reading", [], ["report"]),
    ("the readers of slips and their fields", [], ["fields", "refusals", "transactions", "frames"]),
    ("the writers", [("encoding", "OneWriting", "EachKind")], ["frames_write", "transactions_write"]),
    ("the boundary of the static library, with demands 2 and 3 over it", [("rugxeni", "OverBoundary", "OverBoundary"), ("rugxeni", "WrittenRead", "WrittenRead")], ["rugxeni"]),
    ("that there are ledgers in use", [("demand", "Exists", "ChainsExist"), ("replay", "Exists", "RunChainsExist"), ("rugxeni", "OverBoundary", "BoundaryChainsExist")], []),
    ("the bounds on what is lent", [("extent", "Claim", "TextFits"), ("extent", "Buffers", "BuffersFit"), ("report", "Reports", "ReportFits")], []),
]
WORD = re.compile(r"[^\s()\[\]{},;⌜⌝]+")
# A function or a method, with its contract; and the law of a conversion.
FUNCTION = re.compile(r'^( *)pub (?:extern "C" )?fn \w+[<(].*?^\1\{', re.M | re.S)
CLAUSE = re.compile(r"(?:requires|ensures)(?: \w+)? \{(.*?)\}\n", re.S)
LAW = re.compile(r"^    ghost \w+ = \{(.*?)\};$", re.M | re.S)
MODIFIER = {"pub", "unfoldable", "abbrev", "record", "data", "instance", "infixl", "infixr", "infix"}


def imports(lines):
    """name in this file -> (crate, file, name), and alias -> (crate, file)"""
    names, aliases = {}, {}
    for line in lines:
        m = re.match(r"(?:ghost )?use Rattle\.(\w+)\.specs\.([\w.-]+?)(?:\.\{(.*)\}| as (\S+?));?$", line.strip())
        if not m:
            continue
        crate, path, list_, alias = m.groups()
        if list_ is None:
            aliases[alias] = (crate, path)
            continue
        for n in list_.split(","):
            n = n.strip()
            inner = n.split(" as ")
            names[inner[-1].strip()] = (crate, path, inner[0].strip())
    return names, aliases


def definitions(path):
    """name -> its lines, of one file of specs/"""
    found, name, text = {}, None, open(path, encoding="utf-8").read().split("\n")
    for line in text:
        if not line.strip() or line.lstrip().startswith("--") or line.startswith("use ") or line.startswith("pub mod"):
            continue
        if not line[0].isspace():
            words = [w for w in WORD.findall(line)]
            while words and words[0] in MODIFIER:
                words.pop(0)
            if words and words[0] != "unfolding" and (name is None or (words[0] != name and ":" in words)):
                name = words[0]
        found.setdefault(name, []).append(line)
    return found, text


def constructors(defs):
    owner = {}
    for name, lines in defs.items():
        for line in lines[1:]:
            m = re.match(r"\s+(?:pub )?(\S+) :", line)
            if m:
                owner.setdefault(m.group(1), name)
    return owner


class Files:
    def __init__(self):
        self.cache = {}

    def get(self, crate, path):
        key = (crate, path)
        if key not in self.cache:
            file = f"crates/{crate}/specs/{path.replace('.', '/')}.antt"
            if not os.path.exists(file):
                self.cache[key] = None
            else:
                defs, text = definitions(file)
                self.cache[key] = (defs, constructors(defs), *imports(text))
        return self.cache[key]


def resolve(word, crate, path, files, names, aliases, defs=None, owner=None):
    out = []
    parts = word.split(".")
    for part in {word, *parts} | {"◌" + word + "◌"}:
        if defs is not None and part in defs:
            out.append((crate, path, part))
        if owner is not None and part in owner:
            out.append((crate, path, owner[part]))
        if part in names:
            out.append(names[part])
    if len(parts) > 1 and parts[0] in aliases:
        out.append((*aliases[parts[0]], parts[1]))
    return out


def public_files(crate):
    """the files of src/ whose functions other crates can call"""
    root = open(f"crates/{crate}/src/lib.rt", encoding="utf-8").read()
    yield f"crates/{crate}/src/lib.rt"
    for module in re.findall(r"^pub mod (\w+);", root, re.M):
        yield f"crates/{crate}/src/{module}.rt"


def cited(crate, files):
    """the definitions that the crate's public contracts name"""
    for src in public_files(crate):
        text = open(src, encoding="utf-8").read()
        names, aliases = imports(text.split("\n"))
        clauses = [c for m in FUNCTION.finditer(text) for c in CLAUSE.findall(m[0])]
        for clause in clauses + LAW.findall(text):
            for word in WORD.findall(clause):
                yield from resolve(word, crate, "", files, names, aliases)


def reached(roots, files):
    seen, todo, declared = set(), list(roots), set()
    while todo:
        item = todo.pop()
        crate, path, name = item
        if path.startswith("declared"):
            declared.add((crate, path))
            continue
        f = files.get(crate, path)
        if item in seen or f is None:
            continue
        defs, owner, names, aliases = f
        if name not in defs:
            if name in owner:
                todo.append((crate, path, owner[name]))
            continue
        seen.add(item)
        for line in defs[name]:
            for word in WORD.findall(line):
                todo += [t for t in resolve(word, crate, path, files, names, aliases, defs, owner) if t != item]
    return seen, declared


def main(word):
    files, before, structs = Files(), set(), set()
    order = [l.split(":")[0].split()[0] for l in open("crates.txt")]
    lines_of = lambda items: sum(len(files.get(c, p)[0][n]) for c, p, n in items)
    out = ["<!-- written by `python3 docs/src/trusted_text.py --write`; the gate compares -->", "# The definitions that promises rest on", ""]
    out += ["| Rests on | Definitions | Lines | Of these not in a row above |", "|---|---|---|---|"]
    for title, claims, crates in GROUPS:
        roots = list(claims)
        for crate in crates:
            if crate in order:
                roots += cited(crate, files)
        seen, declared = reached(roots, files)
        structs |= declared
        new = seen - before
        out.append(f"| {title} | {len(seen)} | {lines_of(seen)} | {lines_of(new)} |")
        before |= seen
    out.append(f"| all | {len(before)} | {lines_of(before)} | |")
    rows = {}
    for crate, path, name in before:
        rows.setdefault((crate, path), []).append(name)
    out += ["", "| File | Definitions | Lines | Names |", "|---|---|---|---|"]
    for (crate, path), names in sorted(rows.items(), key=lambda r: (order.index(r[0][0]), r[0][1])):
        lines = lines_of((crate, path, n) for n in names)
        out.append(f"| {crate}/{path} | {len(names)} | {lines} | {', '.join('`' + n + '`' for n in sorted(names))} |")
    out += ["", f"{len(rows)} files; {len(structs)} structs and enums of `src/` are named beside them."]
    return generated.put(TABLE, "\n".join(out) + "\n", word)


if __name__ == "__main__":
    if sys.argv[1:] not in ([], ["--write"], ["--check"]):
        sys.exit(__doc__)
    os.chdir(ROOT)
    sys.exit(main("".join(sys.argv[1:])))
