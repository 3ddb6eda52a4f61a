#!/usr/bin/env python3
"""Brings the names of definitions and lemmas to one spelling: words in snake case, a dash between two names and `_` before a plain word.

usage: python3 tools/respell.py [--names FILE]     at the top of the repository, once, right after port.py

It rewrites the .antt and .rt files of crates/, and with --names writes each name, old and new, as JSON. Functions of src/, strings and what is
written or read keep their names. A name whose new spelling is taken already keeps the old one, and is printed.
"""

import json
import os
import re
import sys

HUMP = re.compile(r"(?<![A-Za-z0-9_])[a-z][A-Za-z0-9_]*?[a-z0-9][A-Z][A-Za-z0-9_]*")
WORD = re.compile(r"[^\s(){}\[\].,;\"«»⌜⌝`]+")
DECLARED = re.compile(r"^(?:  )?(?:abbrev |unfoldable |pub |private |ruleset |record |data )*([^\s(){}:,;.=]+) :(?=\s|$)", re.M)
RULESET = re.compile(r"^(?:pub )?ruleset ([^\s=]+)", re.M)
CASE = re.compile(r"^  (?:pub )?([a-z][^\s:]*) :", re.M)
# Words of the library that stand in names of lemmas.
LIBRARY = set("length take drop set get_or map append reverse suc foldl cond eqb ltb leb sets replicate".split())


# Modules that cannot keep their name, since Rattle now makes one of that name: crate, old and new.
MOVED = [("settlement", "Contracts", "Books")]


def snake(text):
    """accountLine becomes account_line; a part that is no such word stays."""
    return HUMP.sub(lambda m: re.sub(r"([a-z0-9])([A-Z])", lambda h: h.group(1) + "_" + h.group(2).lower(), m.group(0)), text)


def files(root):
    for folder, dirs, names in os.walk(os.path.join(root, "crates")):
        dirs[:] = sorted(d for d in dirs if d != "out")
        for name in sorted(names):
            if name.endswith((".antt", ".rt")):
                yield os.path.join(folder, name)


def joined(name, known, facts):
    """The dashes of a lemma's name: one stays between two names, and before a plain word it becomes `_`."""
    parts = [facts.get(p, snake(p)) for p in name.split("-")]
    if "" in parts:
        return snake(name)
    out = parts[0]
    for before, part in zip(parts, parts[1:]):
        out += ("-" if before in known and part in known else "_") + part
    return out


def main(argv):
    texts = {p: open(p, encoding="utf-8").read() for p in files(".")}
    specs, declared = set(), set()
    for p, t in texts.items():
        if not p.endswith(".antt"):
            continue
        found = set(DECLARED.findall(t)) | set(RULESET.findall(t)) | set(CASE.findall(t))
        own_proof = os.path.basename(p) in ("Proof.antt", "Answers.antt", "Invariants.antt")
        if not own_proof:
            declared |= found
        if "/specs/" in p:
            specs |= found
    known = {snake(n) for n in specs} | LIBRARY
    facts = {n[0].lower() + n[1:]: n for n in specs if n[0].isupper() and any(c.islower() for c in n)}
    facts = {k: v for k, v in facts.items() if re.search("[A-Z]", k) and k not in specs}
    known |= set(facts.values())
    names, taken = {}, {}
    for n in sorted(declared):
        if n[0].isupper() or not re.match(r"[a-z]", n):
            continue
        new = joined(n, known, facts)
        if new != n:
            names[n] = new
    stay = {n for n in declared if n not in names}
    by_new = {}
    for n, new in names.items():
        by_new.setdefault(new, []).append(n)
    for new, old in sorted(by_new.items()):
        if new in stay or len(old) > 1:
            for n in old:
                less = snake(n)
                if less != n and less not in stay and all(snake(o) != less for o in declared if o != n):
                    names[n] = less
                else:
                    del names[n]
                print(f"taken: {n} would be {new}; it is {names.get(n, n)}")

    # port.py has given some lemmas the very name that a definition gets here: the lemma keeps its dash.
    stay_dashed = {new: "-".join(new.rsplit("_", 1)) for new in by_new if new in stay and new not in specs}
    for new, dashed in sorted(stay_dashed.items()):
        print(f"taken: the lemma {new} is {dashed}")

    def turn(t, dashed):
        def word(m):
            w = m.group(0)
            if w in dashed and not t[: m.start()].endswith("."):
                return dashed[w]
            if t[: m.start()].endswith(("tie.", "goal.", "Lts.")):
                return w
            return names.get(w, snake(w))

        return WORD.sub(word, t)

    for crate, old, new in MOVED:
        folder = os.path.join("crates", crate, "specs")
        os.rename(os.path.join(folder, old + ".antt"), os.path.join(folder, new + ".antt"))
        texts[os.path.join(".", folder, new + ".antt")] = texts.pop(os.path.join(".", folder, old + ".antt"))
        root = os.path.join(".", folder, "Lib.antt")
        texts[root] = texts[root].replace(f"pub mod {old}\n", f"pub mod {new}\n")
        with open(root, "w", encoding="utf-8") as f:
            f.write(texts[root])
        for p, t in texts.items():
            texts[p] = t.replace(f"Rattle.{crate}.specs.{old}.", f"Rattle.{crate}.specs.{new}.")
            if texts[p] != t:
                with open(p, "w", encoding="utf-8") as f:
                    f.write(texts[p])
    for p, t in texts.items():
        if p.endswith(".antt"):
            own_proof = os.path.basename(p) in ("Proof.antt", "Answers.antt", "Invariants.antt")
            new = turn(t, {} if own_proof else stay_dashed)
        else:
            # In code only definitions have humps, and a lemma's dash would be a minus.
            new = re.sub(r"//[^\n]*|\"[^\"\n]*\"|[A-Za-z_][A-Za-z0-9_]*", lambda m: m.group(0) if m.group(0).startswith('"') else snake(m.group(0)), t)
            new = re.sub(r"\.([a-z_]+(?:-[a-z_]+)+)", lambda m: "." + names.get(m.group(1), m.group(1)), new)
        if new != t:
            with open(p, "w", encoding="utf-8") as f:
                f.write(new)
    if argv[:1] == ["--names"]:
        for t in texts.values():
            for m in HUMP.finditer(t):
                names.setdefault(m.group(0), snake(m.group(0)))
        with open(argv[1], "w", encoding="utf-8") as f:
            json.dump(dict(sorted(names.items())), f, ensure_ascii=False, indent=0)
    print(f"{len(names)} names")


if __name__ == "__main__":
    main(sys.argv[1:])
