"""Prints a few readings of a run: PYTHONPATH=bindings/python python3 bindings/python/examples/read.py RUN"""

import sys
from pathlib import Path

import rugxeni

try:
    reading = rugxeni.read(Path(sys.argv[1]).read_bytes())
except rugxeni.Refused as refused:
    sys.exit(f"no reading: {refused}")

turned_away = [answer for answer in reading.answers if isinstance(answer, rugxeni.Refusal)]
print(f"{len(reading.answers)} blocks, {len(turned_away)} turned away, {len(reading.log)} in the global log")
for instance, blocks in enumerate(reading.blocks):
    print(f"instance {instance}: {len(blocks)} blocks, last rank {blocks[-1].rank if blocks else 'none'}")
print(f"settled: {reading.share / 10} % of {reading.sizes.transactions} transactions, {reading.settlements.count('paid')} paid")
print(f"held: {sum(account.held for account in reading.accounts)}")
