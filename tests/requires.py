#!/usr/bin/env python3
"""Public functions that ask something of their caller.

A library's caller is promised an answer whatever he lends, so a public function has no `requires`. The exceptions are inner layers, each called only
where what it asks is shown; ALLOWED has them, and may only get shorter: `python3 tests/requires.py` fails where another public function has one, and
where one of these no longer has."""
import glob
import os
import re
import sys

ALLOWED = {
    "acceptance::accept::take_block",
    "closing::closing::put_readings",
    "escrow::outcome::outcome",
    "ordering::global_log",
    "settlement::settle::settle",
}
# Methods, too, and functions with type parameters.
SIGNATURE = re.compile(r'^( *)pub (?:extern "C" )?fn (\w+)(.*?)^\1\{', re.M | re.S)


def public_files(crate):
    root = f"crates/{crate}/src/lib.rt"
    yield crate, root
    for module in re.findall(r"^pub mod (\w+);", open(root, encoding="utf-8").read(), re.M):
        yield f"{crate}::{module}", f"crates/{crate}/src/{module}.rt"


def main():
    os.chdir(os.path.join(os.path.dirname(os.path.abspath(__file__)), ".."))
    found, seen = set(), 0
    for root in sorted(glob.glob("crates/*/src/lib.rt")):
        for module, path in public_files(root.split("/")[1]):
            for _, name, contract in SIGNATURE.findall(open(path, encoding="utf-8").read()):
                seen += 1
                if re.search(r"^ +requires\*?(?: \w+)? \{", contract, re.M):
                    found.add(f"{module}::{name}")
    for name in sorted(found - ALLOWED):
        print(f"{name} asks something of its caller, and it is not one of those that may")
    for name in sorted(ALLOWED - found):
        print(f"{name} asks nothing of its caller: take it off the list")
    print(f"{seen} public functions, {len(found)} with a `requires`")
    return 1 if found != ALLOWED or not seen else 0


if __name__ == "__main__":
    sys.exit(main())
