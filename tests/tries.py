"""What the prover says of an edit: its crate is checked with it, in a copy, over what `rt check` kept of the crate as it stands.

`rt must-fail` and `rt ci` try the edits too, but they print of each the first error alone and keep no more. Here the whole of what the prover says is kept, in
FOLDER/NAME/EDIT.log. A room is a repository with every crate's files; it takes from this one the libraries and the kept work in crates/*/out, which
`rt all check` leaves there. Where they are missing the prover makes them anew in each room, which takes much longer and says the same.
"""
import concurrent.futures
import os
import queue
import shutil
import subprocess
import tempfile

PARTS = ("src", "specs", "proofs")
MEMORY = 4_000_000_000  # that a check may take


def lanes():
    """How many checks at once the machine has processors and free memory for."""
    with open("/proc/meminfo", encoding="utf-8") as file:
        free = next(int(line.split()[1]) * 1024 for line in file if line.startswith("MemAvailable:"))
    return max(1, min(len(os.sched_getaffinity(0)), free // MEMORY))


def link(source, target):
    try:
        os.link(source, target)
    except OSError:
        shutil.copy2(source, target)


def link_proved(source, target):
    """A check replaces such a file and writes into none; others of its kept work are copied."""
    (link if source.endswith(".oantt") else shutil.copy2)(source, target)


def lend(folder, part, room, copy):
    if os.path.isdir(f"{folder}/out/{part}"):
        shutil.copytree(f"{folder}/out/{part}", f"{room}/out/{part}", copy_function=copy)


def put_crate(crate, room):
    """The crate's own files, as they stand."""
    for part in PARTS:
        shutil.rmtree(f"{room}/crates/{crate}/{part}", ignore_errors=True)
        if os.path.isdir(f"crates/{crate}/{part}"):
            shutil.copytree(f"crates/{crate}/{part}", f"{room}/crates/{crate}/{part}")


def make_room(room, crates):
    os.makedirs(f"{room}/.git")
    shutil.copy("crates.txt", room)
    for crate in crates:
        put_crate(crate, room)
        lend(f"crates/{crate}", "rlib", f"{room}/crates/{crate}", link)


def apply(replacements, folder):
    """Changes the files in the folder; says what does not stand there once."""
    for file, old, new in replacements:
        with open(f"{folder}/{file}", encoding="utf-8") as source:
            text = source.read()
        if text.count(old) != 1:
            return f"{old.strip()!r} stands {text.count(old)} times in {file}"
        with open(f"{folder}/{file}", "w", encoding="utf-8") as out:
            out.write(text.replace(old, new))
    return ""


def checked(room, crate, replacements):
    """Why the edit cannot be tried, or else what the prover says."""
    folder = f"{room}/crates/{crate}"
    try:
        wrong = apply(replacements, folder)
        if wrong:
            return wrong, ""
        shutil.rmtree(f"{folder}/out/incremental", ignore_errors=True)
        lend(f"crates/{crate}", "incremental", folder, link_proved)
        how = {"stdin": subprocess.DEVNULL, "stdout": subprocess.PIPE, "stderr": subprocess.STDOUT, "text": True, "errors": "replace"}
        return "", subprocess.run(["rt", "check", "--jobs", "1"], cwd=folder, **how).stdout
    finally:
        put_crate(crate, room)


def tried(edits, crates, folder):
    """edits: pairs of a crate and an edit's (name, replacements). Gives for each why it cannot be tried, and the prover's words."""
    shutil.rmtree(folder, ignore_errors=True)
    rooms, number = queue.Queue(), lanes()

    def one(edit):
        crate, (name, replacements) = edit
        room = rooms.get()
        try:
            wrong, words = checked(room, crate, replacements)
        finally:
            rooms.put(room)
        os.makedirs(f"{folder}/{crate}", exist_ok=True)
        with open(f"{folder}/{crate}/{name}.log", "w", encoding="utf-8") as out:
            out.write(wrong or words)
        return wrong, words

    with tempfile.TemporaryDirectory() as top, concurrent.futures.ThreadPoolExecutor(number) as pool:
        for n in range(number):
            make_room(f"{top}/{n}", crates)
            rooms.put(f"{top}/{n}")
        return list(pool.map(one, edits))
