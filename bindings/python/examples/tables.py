"""Writes a run's reading as tables: PYTHONPATH=bindings/python python3 bindings/python/examples/tables.py RUN FOLDER

log.csv, transactions.csv, accounts.csv, registers.csv and blocks.csv, the accepted blocks of every instance. Log positions count from 1, as in the picture
of draw.py; a block outside the log has none. Cuts and citations are lists of numbers, parted by spaces.
"""

import csv
import sys
from pathlib import Path

import rugxeni


def tables(reading):
    """Each table by name: its columns, then its rows."""
    position = {place: k for k, place in enumerate(reading.log, start=1)}
    blocks = [block for instance in reading.blocks for block in instance]
    return {
        "log": [
            ("position", "instance", "sequence", "rank"),
            *((k, i, n, reading.blocks[i][n - 1].rank) for k, (i, n) in enumerate(reading.log, start=1)),
        ],
        "transactions": [("transaction", "settlement"), *enumerate(reading.settlements)],
        "accounts": [("account", "free", "held"), *((k, account.free, account.held) for k, account in enumerate(reading.accounts))],
        "registers": [("register", "value"), *enumerate(reading.registers)],
        "blocks": [
            ("instance", "sequence", "rank", "position", "cut", "citations"),
            *(
                (b.instance, b.sequence, b.rank, position.get((b.instance, b.sequence), ""), spaced(b.cut), spaced(b.citations))
                for b in blocks
            ),
        ],
    }


def spaced(numbers):
    return " ".join(str(number) for number in numbers)


def main(run, folder):
    try:
        reading = rugxeni.read(Path(run).read_bytes())
    except rugxeni.Refused as refused:
        sys.exit(f"{run}: {refused}")
    Path(folder).mkdir(parents=True, exist_ok=True)
    for name, rows in tables(reading).items():
        with open(Path(folder, f"{name}.csv"), "w", newline="", encoding="ascii") as file:
            csv.writer(file, lineterminator="\n").writerows(rows)


if __name__ == "__main__":
    if len(sys.argv) != 3:
        sys.exit("usage: tables.py RUN FOLDER")
    main(*sys.argv[1:])
