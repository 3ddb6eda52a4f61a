"""Each wrong definition of a rule, seen to be wrong: a row that document 01 or a rule gives no longer comes out of it.

A room has the definitions alone, specs/ of every crate up to `plain` and the types that code declares, and the rows: the proofs by computing, Edges,
EdgesRefusals and Rows, of closed terms. With a definition that says the same in other words every row computes to what it did, so one with which a row
does not is another rule. Where the prover says that a row would do with a definition opened, that shows nothing. The rows of the changed crate are looked
at first, and then those of the crates above it.
"""
import os
import re
import shutil
import subprocess
import sys

import verdicts
import wrong_engines

TOP = "plain"
BESIDE = ["encoding"]
ROWS = ["Edges", "EdgesRefusals", "Rows"]
FUNCTION = re.compile(r'^(?:#\[[^\n]*\]\n)*(?:pub(?:\(\w+\))? )?fn \w+.*?^}\n', re.M | re.S)
# what a type can need of other code: types begin with a capital letter
USE = re.compile(r"^((?:pub )?use (?:[^;{]*::)?)(\{[^;]*\}|[^:;{]*);\n", re.M)
GHOST_USE = re.compile(r"^ghost use Rattle\.\w+\.proofs\.[^;]*;\n", re.M)


def types_of(use):
    names = [name for name in re.findall(r"[^\s{},]+", use[2]) if name[0].isupper()]
    return f"{use[1]}{{{', '.join(names)}}};\n" if names else ""


def types_alone(text):
    return USE.sub(types_of, GHOST_USE.sub("", FUNCTION.sub("", text)))


def crates(below):
    """Those whose definitions are in the room."""
    return [name for name in below if name in below[TOP] + BESIDE + [TOP]]


def add_crate(room, crate):
    for folder, _, files in os.walk(f"crates/{crate}/src"):
        os.makedirs(f"{room}/{folder}")
        for file in files:
            with open(f"{room}/{folder}/{file}", "w", encoding="utf-8") as out:
                out.write(types_alone(wrong_engines.read(f"{folder}/{file}")))
    shutil.copytree(f"crates/{crate}/specs", f"{room}/crates/{crate}/specs")
    rows = [name for name in ROWS if os.path.exists(f"crates/{crate}/proofs/{name}.antt")]
    if rows:
        os.makedirs(f"{room}/crates/{crate}/proofs")
        for name in rows:
            shutil.copy(f"crates/{crate}/proofs/{name}.antt", f"{room}/crates/{crate}/proofs")
        with open(f"{room}/crates/{crate}/proofs/Lib.antt", "w", encoding="utf-8") as out:
            out.write("".join(f"mod {name}\n" for name in rows))


def make_room(room, below):
    os.makedirs(f"{room}/.git")
    with open(f"{room}/crates.txt", "w", encoding="utf-8") as out:
        for crate in crates(below):
            add_crate(room, crate)
            out.write(f"{crate}: {' '.join(below[crate])}\n")


def with_rows(room, crate):
    """The crates of the room whose rows can hang on a crate, itself first; of all where none is named."""
    lines = [line.split(":") for line in wrong_engines.read(f"{room}/crates.txt").splitlines()]
    above = [name for name, below in lines if crate in (None, name, *below.split())]
    return [name for name in above if os.path.exists(f"{room}/crates/{name}/proofs/Lib.antt")]


def difference(room, crate):
    """A row that does not come out with the changed definition; empty where all do."""
    for name in with_rows(room, crate):
        done = subprocess.run(["rt", "check", "--jobs", "1"], cwd=f"{room}/crates/{name}", stdin=subprocess.DEVNULL, capture_output=True, text=True)
        if done.returncode == 0:
            continue
        said = done.stdout + done.stderr
        failed = [row for file, row in verdicts.Log(name, said).facts() if os.path.basename(file)[:-5] in ROWS]
        if not failed:
            sys.exit(f"{name}: no row is computed to its end:\n{said}")
        return f"rows: {failed[0]}"
    return ""
