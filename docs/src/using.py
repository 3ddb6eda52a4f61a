#!/usr/bin/env python3
"""The listings of docs/USING.md are files: a block that begins with ```LANGUAGE PATH holds the text of PATH.

    using.py            prints the page with its blocks filled in
    using.py --write    writes it
    using.py --check    compares, and says which blocks differ

A block names no file only where it is a sample of output (```text). Each script of docs/using/ has to be on the page."""
import glob
import os
import re
import sys

ROOT = os.path.join(os.path.dirname(os.path.abspath(__file__)), "../..")
sys.path.insert(0, os.path.join(ROOT, "tests"))
sys.dont_write_bytecode = True
import generated  # noqa: E402

PAGE = "docs/USING.md"
SCRIPTS = "docs/using/*.sh"
SAMPLE = "text"
BLOCK = re.compile(r"^```(.*)\n((?:(?!```).*\n)*)```$", re.M)
FENCE = re.compile(r"^[ \t>]*(?:```|~~~)", re.M)


class Wrong(Exception):
    """What is wrong with a block."""


def listing(path):
    """The text of a file, as it can stand in a block."""
    if not os.path.isfile(path):
        raise Wrong(f"there is no file {path}")
    with open(path, encoding="utf-8") as file:
        text = file.read()
    if FENCE.search(text) or not text.endswith("\n"):
        raise Wrong(f"{path} cannot stand in a block: one of its lines begins as a fence does, or its last line has no end")
    return text


def due(info, kept):
    """The text that belongs in a block, by the words behind its fence."""
    language, _, path = info.partition(" ")
    if path:
        return listing(path)
    if language != SAMPLE:
        raise Wrong("the block names no file")
    return kept


def fill(page):
    """The page with its blocks filled in; which of them differed; what is wrong."""
    differ, wrong = [], []

    def filled(block):
        info, kept = block.groups()
        place = f"{PAGE}:{page.count(chr(10), 0, block.start()) + 1}"
        try:
            text = due(info, kept)
        except Wrong as error:
            wrong.append(f"{place}: {error}")
            return block.group()
        if text != kept:
            differ.append(f"{place}: the block is not {info.partition(' ')[2]}")
        return f"```{info}\n{text}```"

    return BLOCK.sub(filled, page), differ, wrong


def missing(page):
    """What the blocks alone do not show: fences that make no block, scripts that are not on the page."""
    infos = [info for info, _ in BLOCK.findall(page)]
    if len(FENCE.findall(page)) != 2 * len(infos):
        yield f"{PAGE}: a fence is indented, of another kind than ```, or not closed"
    shown = {info.partition(" ")[2] for info in infos}
    yield from (f"{PAGE}: {script} is not on the page" for script in sorted(glob.glob(SCRIPTS)) if script not in shown)


def main(word):
    with open(PAGE, encoding="utf-8") as file:
        page = file.read()
    text, differ, wrong = fill(page)
    wrong += missing(page)
    for line in wrong + (differ if word == "--check" else []):
        print(line, file=sys.stderr)
    return 1 if wrong else generated.put(PAGE, text, word)


if __name__ == "__main__":
    if sys.argv[1:] not in ([], ["--write"], ["--check"]):
        sys.exit(__doc__)
    os.chdir(ROOT)
    sys.exit(main("".join(sys.argv[1:])))
