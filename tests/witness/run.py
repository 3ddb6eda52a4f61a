#!/usr/bin/env python3
"""Each wrong engine, seen to be wrong.

That a proof no longer goes through does not show that what was changed is wrong: another proof might do. So the engines of crates/NAME/must-fail/ and
must-fail-more/ are tried once more, each alone, in a way that no right change fails: a wrong body by programs that run it (bodies.py), a wrong
definition of a rule by rows that are computed from it (definitions.py).

    run.py [NAME...]    those of all crates, or of the named ones; fails where an engine is not seen to be wrong. Before that the changes of
                        right/NAME.edit, other words for the same: fails where one of them is seen to be wrong

Lost clauses, and what is changed in specs/ above the rules (claims, lists of calls, what arrays say), are not tried here: they are not run, and no row
is computed from them.
"""
import concurrent.futures
import os
import queue
import sys
import tempfile

HERE = os.path.dirname(os.path.abspath(__file__))
ROOT = os.path.dirname(os.path.dirname(HERE))
sys.path.insert(0, os.path.dirname(HERE))
import bodies  # noqa: E402
import definitions  # noqa: E402
import wrong_engines  # noqa: E402

ROOMS = 3 if len(os.sched_getaffinity(0)) > 2 else 2
CLAIM = "specs/Claim.antt"  # what is claimed of a crate's rules; no rule rests on it


def libraries():
    """Of each crate those that it rests on."""
    lines = [line.split(":") for line in wrong_engines.read("crates.txt").splitlines() if ":" in line]
    return {name.split()[0]: below.split() for name, below in lines}


def kind_of(crate, engine, below):
    """The module that tries an engine; None where nothing can be tried."""
    if engine.clause:
        return None
    file = engine.replacements[0][0]
    if file.endswith(".rt"):
        return bodies
    return definitions if crate in definitions.crates(below) and file != CLAIM else None


def wrong_engines_of(crate):
    return [engine for folder in ("must-fail", "must-fail-more") for path in wrong_engines.edits(crate, folder) for engine in wrong_engines.engines(path)]


def right_ones_of(crate):
    path = f"{HERE}/right/{crate}.edit"
    return wrong_engines.engines(path) if os.path.exists(path) else []


def write(path, text):
    with open(path, "w", encoding="utf-8") as out:
        out.write(text)


def seen(kind, room, crate, engine):
    """What shows that a change is wrong; empty where nothing does."""
    kept = {}
    for file, old, new in engine.replacements:
        path = f"{room}/crates/{crate}/{file}"
        text = wrong_engines.read(path)
        if text.count(old) != 1:
            sys.exit(f"{crate}/{engine.label}: {old!r} stands {text.count(old)} times in {file}")
        kept.setdefault(path, text)
        write(path, text.replace(old, new))
    try:
        return kind.difference(room, crate)
    finally:
        for path, text in kept.items():
            write(path, text)


class Rooms:
    """Folders of a kind, each for one trial at a time."""

    def __init__(self, folder, kind, below):
        self.kind, self.free = kind, queue.Queue()
        for n in range(ROOMS):
            kind.make_room(f"{folder}/{n}", below)
            self.free.put(f"{folder}/{n}")

    def trial(self, look):
        room = self.free.get()
        try:
            return look(room)
        finally:
            self.free.put(room)

    def unchanged(self):
        return self.trial(lambda room: self.kind.difference(room, None))

    def seen(self, change):
        return self.trial(lambda room: seen(self.kind, room, *change))


def about(crates, right, wrong):
    """Of each crate the changes of it, with nothing changed first."""
    return {crate: [None] + [engine for of in (right, wrong) for its, engine in of if its == crate] for crate in crates}


def bodies_amiss(folder, below, crates, right, wrong):
    """What is wrong with the wrong bodies; right and wrong are pairs of a crate and an engine."""
    changes = about(crates, right, wrong)
    with concurrent.futures.ThreadPoolExecutor(ROOMS) as pool:
        ended = list(pool.map(lambda crate: bodies.outcomes(f"{folder}/{crate}", crate, below, changes[crate]), crates))
    found = []
    for crate, outcomes in zip(crates, ended):
        for engine, (kind, words) in zip(changes[crate], outcomes):
            is_wrong = (crate, engine) in wrong
            if engine is None and kind != bodies.ENDED:
                found.append(f"{crate}, with nothing changed: {words}")
            elif engine and not is_wrong and kind != bodies.ENDED:
                found.append(f"{crate}/{engine.label}, which is right: {words}")
            elif is_wrong and kind != bodies.SHOWN:
                found.append(f"{crate}/{engine.label}: nothing shows that it is wrong")
    return found


def definitions_amiss(folder, below, _crates, right, wrong):
    """The same of the wrong definitions."""
    rooms = Rooms(folder, definitions, below)
    words = rooms.unchanged()
    found = [f"with nothing changed: {words}"] if words else []
    with concurrent.futures.ThreadPoolExecutor(ROOMS) as pool:
        found += [f"{crate}/{engine.label}, which is right: {words}" for (crate, engine), words in zip(right, pool.map(rooms.seen, right)) if words]
        shown = list(pool.map(rooms.seen, wrong))
    return found + [f"{crate}/{engine.label}: nothing shows that it is wrong" for (crate, engine), words in zip(wrong, shown) if not words]


def main():
    os.chdir(ROOT)
    below = libraries()
    crates = sys.argv[1:] or list(below)
    if not set(crates) <= set(below):
        sys.exit(__doc__)
    found = []
    for kind, amiss in (bodies, bodies_amiss), (definitions, definitions_amiss):
        right, wrong = [[(crate, engine) for crate in crates for engine in of(crate) if kind_of(crate, engine, below) is kind]
                        for of in (right_ones_of, wrong_engines_of)]
        changed = list(dict.fromkeys(crate for crate, _ in right + wrong))
        if changed:
            with tempfile.TemporaryDirectory() as folder:
                found += amiss(folder, below, changed, right, wrong)
            print(f"{kind.__name__}: {len(right)} right ones, {len(wrong)} wrong ones")
    for line in found:
        print(line)
    print(f"{len(found)} complaints")
    return 1 if found else 0


if __name__ == "__main__":
    sys.exit(main())
