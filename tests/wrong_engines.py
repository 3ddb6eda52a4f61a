#!/usr/bin/env python3
"""The wrong engines: which there are, and whether the prover refused each one for the fact that it breaks.

An edit (crates/NAME/must-fail/*.edit, tried by `rt ci`; must-fail-more/*.edit, tried by tests/more_edits.sh) has one wrong engine or several.
Each begins with a line that says what is right, and then has its replacements:

    # label (public functions that it makes wrong): ...   a wrong body: it changes one function. A function's proof rests on the promises of what
                                                          it calls and never on their code, so wrong bodies in several functions are refused one by
                                                          one, and one check of the crate tries them all; or a wrong definition, in an edit of its own
    # label [Record.clause: law]: ...                     a clause of a public contract, lost: the law that says what it is good for no longer holds

    wrong_engines.py table            each public function, each clause and their engines; fails where a function has fewer than two in the gate or
                                      a clause has none. `table --write` writes docs/generated/wrong-engines.md, `table --check` compares it
    wrong_engines.py selftest         the rule of tests/verdicts.py on sample errors
    wrong_engines.py refused [NAME...] tries the edits of all crates, or of the named ones, and reads what the prover says of each engine
                                      (tests/tries.py); see tests/verdicts.py for what counts. With --more it tries those of must-fail-more.
                                      That they are wrong and not only refused is for tests/witness/ to see
"""
import collections
import glob
import os
import re
import sys

import generated
import tries
import verdicts

FUNCTION = re.compile(r'^ *(?:#\[unsafe\(no_mangle\)\]\s+)?(?:pub(?:\(\w+\))? )?(?:extern "C" )?fn (\w+)', re.M)
IMPL = re.compile(r"^impl(?:<[^{]*?>)? (?:([^{]*) for )?(\w+)", re.M)
HEAD = re.compile(r"# (\w+)(?: \(([\w, ]+)\))?(?: \[(\w+)\.([\w-]+): ([\w-]+)\])?: ")
# words and signs of code, to be counted
WORD = re.compile(r"b?'(?:\\.|[^'])'|\w+|[<>=!]=|&&|\|\||\S")
TABLE = "docs/generated/wrong-engines.md"
PROOFS = ("Proof.antt", "Answers.antt", "Invariants.antt")
# The public contracts that are records, by crate and file of specs/, with those that they are made of; and the claims on bar and log, on pairs and on the share.
RECORDS = [
    ("ordering", "Claim", ["LogOf", "LogRules", "PairRules"]),
    ("escrow", "Claim", ["Nearest", "ShareRules"]),
    ("encoding", "Writing", ["Wrote"]),
    ("frames_load", "Load", ["Loads", "Adds", "LoadStep"]),
    ("state", "Loading", ["LoadsSheet"]),
    ("state", "State", ["Beyond"]),
    ("offers", "Offering", ["Offers"]),
    ("plain", "Report", ["Tells"]),
    ("readings", "Reading", ["Reads"]),
    ("account_records", "Records", ["ReadsBeside", "ReadsRecords"]),
    ("rugxeni", "Numbers", ["Said"]),
    ("rugxeni", "Boundary", ["LoadCall", "OfferCall", "ReadCall", "ReportCall", "WriteCall"]),
    ("replay", "Inner", ["Opens", "PutsBlocks"]),
    ("report", "Reports", ["Spared", "Reports"]),
]

# Document 01, "What the promises hold to", c, most nearly passing first: on the code, and as a definition.
SIX = [
    ("answers 12 though the cut is covered", ["offers: covered_cut_refused", "admission: covered_cut_refused"], ["plain: twelve_though_covered"]),
    ("books the first block and merely counts the others", ["acceptance: first_booked_others_counted"], ["plain: first_booked_others_counted"]),
    ("accepts and books nothing", ["offers: accepts_and_books_nothing"], ["plain: accepted_not_booked"]),
    ("its share is invented", ["readings: share_below_1000", "rugxeni: share_of_all"], ["plain: share_invented"]),
    ("the same reading for every run", ["readings: one_reading_for_all", "readings: one_log_for_all"],
     ["plain: one_reading_for_all", "demand: same_reading_for_all"]),
    ("turns all blocks away", ["offers: turns_all_away", "admission: turns_all_away"], ["plain: all_turned_away"]),
]

# clause: (record, clause, law) of an engine that loses one
Engine = collections.namedtuple("Engine", "label functions clause replacements")


def crates():
    return [line.split(":")[0].split()[0] for line in open("crates.txt", encoding="utf-8") if ":" in line]


def read(path):
    return open(path, encoding="utf-8").read()


def edits(crate, folder="must-fail"):
    return sorted(glob.glob(f"crates/{crate}/{folder}/*.edit"))


def engines(path):
    """The wrong engines of one edit, each with the (file, old text, new text) of its replacements."""
    found, file, old = [], None, None
    for line in read(path).splitlines():
        if line.startswith("# "):
            head = HEAD.match(line)
            if head is None:
                sys.exit(f"{path}: no label in: {line}")
            found.append(Engine(head[1], (head[2] or "").split(", "), head.group(3, 4, 5) if head[3] else None, []))
        elif line.startswith("file: "):
            file = line[6:]
        elif line.startswith("old: "):
            old = line[5:]
        elif line.startswith("new:"):
            found[-1].replacements.append((file, old, line[5:]))
    return found


def owner_of(trait, name):
    """What the prover calls an impl: `Lists`, or of a trait `AnswerFromResultUnitRefusal`."""
    words = re.findall(r"\w+", trait.replace("()", "Unit"))
    return "".join(word[0].upper() + word[1:] for word in [name, *words]) if words else name


def changed_function(crate, file, old, _new):
    """The path of the function that a replacement changes, as ('lists', 'debits'), of a method with its type before it; None where it changes a definition."""
    if not file.endswith(".rt"):
        return None
    text = read(f"crates/{crate}/{file}")
    end = text.index(old) + len(old)
    found = [m for m in FUNCTION.finditer(text) if m.start() < end][-1]
    owner = [owner_of(*m.groups("")) for m in IMPL.finditer(text) if m.start() < end][-1:] if found[0].startswith(" ") else []
    module = os.path.splitext(os.path.relpath(file, "src"))[0]
    return (*([] if module in ("lib", "main") else module.split("/")), *owner, found[1])


def changed_clause(crate, file, old, _new):
    """The record and the clause of specs/ that a replacement changes."""
    before = read(f"crates/{crate}/{file}").split(old)[0] + old
    record = re.findall(r"^pub record (\w+)", before, re.M)
    clause = re.findall(r"^  pub ([\w-]+) :", before, re.M)
    return (record or [None])[-1], (clause or [None])[-1]


def has_proof(crate, function):
    *module, name = function
    return any(os.path.exists("/".join(["crates", crate, "proofs", *module, name, file])) for file in PROOFS)


def word_for_word(engine):
    return all(len(WORD.findall(old)) == len(WORD.findall(new)) for _, old, new in engine.replacements)


def clauses(crate, file, record):
    text = read(f"crates/{crate}/specs/{file}.antt")
    body = re.search(rf"^pub record {record} .*\n((?:  .*\n)*)", text, re.M)
    return re.findall(r"^  pub ([\w-]+) :", body[1], re.M) if body else []


def misplaced(crate, found):
    """What is wrong with an edit's engines before they are tried: label -> words."""
    wrong, functions = {}, [{changed_function(crate, *r) for r in e.replacements} for e in found]
    for n, engine in enumerate(found):
        if engine.clause:
            if {changed_clause(crate, *r) for r in engine.replacements} != {engine.clause[:2]}:
                wrong[engine.label] = f"does not change {'.'.join(engine.clause[:2])}, and that alone"
        elif len(functions[n]) != 1 or any(functions[n] & other for other in functions[:n]):
            wrong[engine.label] = "an engine changes one function, and no two of an edit the same"
        elif functions[n] == {None} and len(found) > 1:
            wrong[engine.label] = "an engine that changes a definition has an edit of its own"
    if any(e.clause for e in found) and not all(e.clause for e in found):
        wrong[found[0].label] = "an edit of lost clauses has nothing else"
    return wrong


def judged(crate, found, log):
    """Of each engine of an edit, what is wrong with its refusal; and the errors of functions that no engine changes."""
    wrong, changed = {}, set()
    for engine in found:
        function = changed_function(crate, *engine.replacements[0])
        if engine.clause:
            reason = log.refused_law(engine.clause[2])
        elif function is None:
            reason = log.refused_anywhere()
        else:
            changed.add(function)
            added = all(old.strip() in new and old.count(";") < new.count(";") for _, old, new in engine.replacements)
            # the search that closes the right body says nothing of another shape, but where it finds values at which the goal is false
            reason = log.refused_in(function, added, values=not has_proof(crate, function) and not word_for_word(engine))
        if reason:
            wrong[engine.label] = reason
    return wrong, log.disturbed(changed) if changed else []


def refused(folder, names):
    edits_of = [(crate, path) for crate in names or crates() for path in edits(crate, folder)]
    found = [engines(path) for _, path in edits_of]
    changes = [[r for engine in each for r in engine.replacements] for each in found]
    to_try = [(crate, (os.path.basename(path)[:-5], change)) for (crate, path), change in zip(edits_of, changes)]
    missed = []
    for (crate, (name, _)), each, (untried, words) in zip(to_try, found, tries.tried(to_try, crates(), f"target/{folder}")):
        wrong, disturbed = {}, []
        if untried:
            wrong = {engine.label: f"not tried: {untried}" for engine in each}
        else:
            wrong = misplaced(crate, each)
        if not wrong:
            wrong, disturbed = judged(crate, each, verdicts.Log(crate, words))
        missed += [f"{crate}/{name}/{label}: {why}" for label, why in wrong.items()]
        missed += [f"{crate}/{name}: no engine changes {where}, and yet: {why}" for where, why in disturbed]
    for line in missed:
        print(line)
    tried = sum(map(len, found))
    print(f"{tried} wrong engines, {len(missed)} complaints; what the prover says of each edit is in target/{folder}")
    return 1 if missed or not tried else 0


def public_functions(crate):
    root = f"crates/{crate}/src/lib.rt"
    if not os.path.exists(root):
        return []
    modules = re.findall(r"^pub mod (\w+);", read(root), re.M)
    text = "\n".join(read(path) for path in [root] + [f"crates/{crate}/src/{m}.rt" for m in modules])
    conversions = ["from"] if re.search(r"^impl From<", text, re.M) else []
    return re.findall(r'^ *pub (?:extern "C" )?fn (\w+)', text, re.M) + conversions


def function_rows(few):
    for crate in crates():
        named = [[e for path in edits(crate, folder) for e in engines(path)] for folder in ("must-fail", "must-fail-more")]
        for function in public_functions(crate):
            here, more = [sorted(e.label for e in group if function in e.functions) for group in named]
            yield f"| `{crate}`: `{function}` | {', '.join(here)} | {', '.join(more)} |"
            if len(here) < 2:
                few.append(f"fewer than two: {crate}::{function}")


def clause_rows(few):
    for crate, file, records in RECORDS:
        losing = [e for path in edits(crate) for e in engines(path) if e.clause]
        for record in records:
            named = clauses(crate, file, record)
            if not named:
                few.append(f"no record {record} in {crate}/specs/{file}.antt")
            for clause in named:
                here = [e for e in losing if e.clause[:2] == (record, clause)]
                laws, labels = [", ".join(dict.fromkeys(x)) for x in ([f"`{e.clause[2]}`" for e in here], [e.label for e in here])]
                yield f"| `{crate}`: `{record}.{clause}` | {laws} | {labels} |"
                if not here:
                    few.append(f"never lost: {crate}: {record}.{clause}")


def six_rows(few):
    there = {f"{crate}: {e.label}" for crate in crates() for path in edits(crate) for e in engines(path)}
    for words, code, definition in SIX:
        few += [f"not there: {name}" for name in code + definition if name not in there]
        yield f"| {words} | {', '.join(code)} | {', '.join(definition)} |"


def table(word):
    few, found = [], [e for crate in crates() for path in edits(crate) for e in engines(path)]
    bodies = sum(1 for e in found if e.replacements[0][0].endswith(".rt"))
    lost = sum(1 for e in found if e.clause)
    lines = ["<!-- written by `python3 tests/wrong_engines.py table --write`; the gate compares -->", "# Wrong engines", ""]
    lines += [f"The gate has {len(found)} engines in {sum(len(edits(c)) for c in crates())} edits:"
              f" {bodies} wrong bodies, {lost} lost clauses, {len(found) - bodies - lost} wrong definitions.", ""]
    lines += ["## Document 01's six", "", "| Engine | On the code | As a definition |", "|---|---|---|", *six_rows(few), ""]
    lines += ["## Function by function", "", "| Function | In the gate | Further |", "|---|---|---|", *function_rows(few), ""]
    lines += ["## Clause by clause", "", "| Clause | Law that says what it is good for | Lost as |", "|---|---|---|", *clause_rows(few)]
    status = generated.put(TABLE, "\n".join(lines) + "\n", word)
    for line in few:
        print(line, file=sys.stderr)
    return 1 if few else status


def main():
    os.chdir(os.path.join(os.path.dirname(os.path.abspath(__file__)), ".."))
    words = sys.argv[1:]
    if words[:1] == ["table"] and (len(words) == 1 or words[1:] in (["--write"], ["--check"])):
        return table(words[1] if len(words) == 2 else "")
    if words[:1] == ["refused"] and set(words[1:]) <= {"--more", *crates()}:
        return refused("must-fail-more" if "--more" in words else "must-fail", [word for word in words[1:] if word != "--more"])
    if words == ["selftest"]:
        return verdicts.selftest()
    sys.exit(__doc__)


if __name__ == "__main__":
    sys.exit(main())
