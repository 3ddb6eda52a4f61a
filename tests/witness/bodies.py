"""Each wrong body, seen to be wrong: run, it gives something else than its contract says.

Of a crate NAME there are copies in a repository of their own, one for each change and one with nothing changed. They are run, unproved and with the checks of
`rt try` (an index out of bounds, a sum that wraps, a bad access end the run), by programs/NAME.txt, and by NAME.MORE.txt where there are some: expectations,
each of which follows from the contracts of NAME's functions. A build takes long, so that one program has all copies, and runs the one whose number it reads.
Those of `stored_runs` are run by that program itself, on a group of its stored runs and on wrong readings, and those of `readrun` on the run that lies beside it.

With the proved bodies each program ends as it should. Every function but the changed one is the proved one, and what a program looks at is fixed by
contracts: a body that keeps its contract ends the program so, too. One with which it ends otherwise does not keep it. A program that is stopped for
its time shows nothing. The programs are text and no crates: nothing is proved of them.
"""
import glob
import os
import re
import shutil
import subprocess
import sys

import tries
import wrong_engines

HERE = os.path.dirname(os.path.abspath(__file__))
LIBRARY = "expectations"
PROGRAM = "witness"
COPIES = 32  # in one build
STORED = "stored_runs"
READER = "readrun"
# of the groups that the program reads, one as it is, and one whose readings are wrong here
RIGHT, WRONG = "edges", "generated"
FAULT = re.compile(r"^\w+: (fault .*)\n", re.M)
CASE = re.compile(r"^case=(\d+) run=(\w+)(?: status=(\d+))?.*\n", re.M)
ENDED, SHOWN, STOPPED = "ended", "shown", "stopped"

MAIN = """\
#![tactic(auto)]

{modules}
use std::io;

fn run(number: u32) {{
{calls}}}

fn main(rt: HostRuntime) -> io::Result<()> {{
    for line in rt.lines(rt.alloc()) {{
        let Ok(number) = line?.as_str().parse::<u32>() else {{
            return Ok(());
        }};
        run(number);
    }}
    Ok(())
}}
"""


def write(path, text):
    os.makedirs(os.path.dirname(path), exist_ok=True)
    with open(path, "w", encoding="utf-8") as out:
        out.write(text)


def copy_of(crate, number):
    return f"{crate}_{number}"


def add_copy(room, crate, number, change):
    folder = f"{room}/crates/{copy_of(crate, number)}"
    shutil.copytree(f"crates/{crate}/src", f"{folder}/src")
    wrong = tries.apply(change.replacements, folder) if change else ""
    if wrong:
        sys.exit(f"{crate}/{change.label}: {wrong}")
    for path in glob.glob(f"{folder}/src/**/*.rt", recursive=True):
        # two copies would give C the same name
        write(path, wrong_engines.read(path).replace('#[unsafe(no_mangle)]\npub extern "C" fn', "pub fn"))


def make_room(room, crate, name, below, changes):
    """A program of expectations with a copy of the crate for each change, and the number of each as a case."""
    os.makedirs(f"{room}/.git")
    for it in below[crate]:
        shutil.copytree(f"crates/{it}/src", f"{room}/crates/{it}/src")
    shutil.copytree(f"{HERE}/programs", f"{room}/programs")
    write(f"{room}/crates/{LIBRARY}/src/lib.rt", wrong_engines.read(f"{HERE}/{LIBRARY}.txt"))
    lines = [f"{LIBRARY}:"] + [f"{it}: {' '.join(below[it])}" for it in below[crate]]
    text = wrong_engines.read(f"{HERE}/programs/{name}.txt").replace("fn main()", "pub fn main()")
    for number, change in enumerate(changes):
        add_copy(room, crate, number, change)
        lines.append(f"{copy_of(crate, number)}: {' '.join(below[crate])}")
        write(f"{room}/crates/{PROGRAM}/src/p{number}.rt", re.sub(rf"(?<![\w:]){crate}::", f"{copy_of(crate, number)}::", text))
        write(f"{room}/cases/{number}", f"{number}\n")
    numbers = range(len(changes))
    calls = "".join(f"    if number == {n} {{\n        p{n}::main();\n    }}\n" for n in numbers)
    write(f"{room}/crates/{PROGRAM}/src/main.rt", MAIN.format(modules="".join(f"mod p{n};\n" for n in numbers), calls=calls))
    lines.append(f"{PROGRAM}: {LIBRARY} {' '.join(below[crate])} {' '.join(copy_of(crate, n) for n in numbers)}")
    write(f"{room}/crates.txt", "\n".join(lines) + "\n")


def tried(folder, words, sent=b""):
    done = subprocess.run(["rt", "try", *words], cwd=folder, input=sent, capture_output=True)
    return subprocess.CompletedProcess(done.args, done.returncode, *(out.decode(errors="replace") for out in (done.stdout, done.stderr)))


def make_program(room, crate, below, change):
    """A repository with the program, changed, and what it rests on."""
    os.makedirs(f"{room}/.git")
    for it in [*below[crate], crate]:
        shutil.copytree(f"crates/{it}/src", f"{room}/crates/{it}/src")
    if change and tries.apply(change.replacements, f"{room}/crates/{crate}"):
        sys.exit(f"{crate}/{change.label}: not applied")
    write(f"{room}/crates.txt", "".join(f"{it}: {' '.join(below[it])}\n" for it in [*below[crate], crate]))


def outcome(crate, done, wanted):
    """How a program ended that should print what is wanted, and the words for it."""
    if not re.search(r"run=(ended|fault|differs)", done.stderr):
        sys.exit(f"{crate} was not run to its end:\n{done.stdout}{done.stderr}")
    return ENDED if done.returncode == 0 and done.stdout == wanted else SHOWN, f"{crate}: {done.stdout}{done.stderr}"


def run_copies(room, crate, name, below, changes):
    """Of each change how its copy ended, and the words for it."""
    make_room(room, crate, name, below, changes)
    done = tried(f"{room}/crates/{PROGRAM}", ["--cases", "../../cases"])
    found, at = {}, 0
    for case in CASE.finditer(done.stderr):
        number, run, status = case.groups()
        faults = FAULT.findall(done.stderr, at, case.start())
        at = case.end()
        kind = ENDED if (run, status) == ("ended", "0") else STOPPED if run not in ("ended", "fault", "differs") else SHOWN
        found[int(number)] = (kind, f"{name}: {faults[0] if faults else case[0].strip()}")
    shutil.rmtree(room)
    if found.keys() != set(range(len(changes))):
        sys.exit(f"{name} was not run for each change:\n{done.stdout}{done.stderr}")
    return [found[n] for n in range(len(changes))]


def wrong_entries(data):
    """The first run of a group with texts that are not its reading: another first byte, a byte less, a byte more."""
    run, text = (int.from_bytes(data[at:at + 4], "little") for at in (0, 4))
    run, text = data[8:8 + run], data[8 + run:8 + run + text]
    others = [b"?" + text[1:], text[:-1], text + b"?"]
    return [len(run).to_bytes(4, "little") + len(other).to_bytes(4, "little") + run + other for other in others]


def run_stored(room, below, changes):
    """The same of the program of stored runs."""
    with open(f"crates/{STORED}/data/{RIGHT}", "rb") as stored:
        entries = wrong_entries(stored.read())
    agree = int(re.search(rf"^{RIGHT}: (\d+) runs", wrong_engines.read(f"crates/{STORED}/stdout"), re.M)[1])
    wanted = f"{RIGHT}: {agree} runs, {agree} agree\n{WRONG}: {len(entries)} runs, 0 agree\n{agree + len(entries)} runs, {agree} agree\n"
    found = []
    for change in changes:
        make_program(room, STORED, below, change)
        shutil.copy(f"crates/{STORED}/data/{RIGHT}", room)
        with open(f"{room}/{WRONG}", "wb") as out:
            out.write(b"".join(entries))
        done = tried(f"{room}/crates/{STORED}", [word for it in (RIGHT, WRONG) for word in ("--data", f"{it}={room}/{it}")])
        shutil.rmtree(room)
        found.append(outcome(STORED, done, wanted))
    return found


def run_reader(room, below, changes):
    """The same of the program `readrun`."""
    with open(f"crates/{READER}/stdin", "rb") as run:
        sent = run.read()
    found = []
    for change in changes:
        make_program(room, READER, below, change)
        found.append(outcome(READER, tried(f"{room}/crates/{READER}", [], sent), wrong_engines.read(f"crates/{READER}/stdout")))
        shutil.rmtree(room)
    return found


def outcomes(room, crate, below, changes):
    """Of each change of a crate how it was seen to end, and the words for it; None for nothing changed."""
    if crate == STORED:
        return run_stored(room, below, changes)
    if crate == READER:
        return run_reader(room, below, changes)
    found = [(ENDED, "")] * len(changes)
    for path in sorted(glob.glob(f"{HERE}/programs/*.txt")):
        name = os.path.basename(path)[:-4]
        if name.split(".")[0] != crate:
            continue
        for first in range(0, len(changes), COPIES):
            here = run_copies(room, crate, name, below, changes[first:first + COPIES])
            for n, outcome in enumerate(here, first):
                # what shows something goes first, and then what does not end
                found[n] = max(found[n], outcome, key=lambda it: (it[0] == SHOWN, it[0] == STOPPED))
    return found
