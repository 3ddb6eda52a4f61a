"""Writes document 01's run to a file: PYTHONPATH=bindings/python python3 bindings/python/examples/write.py OUT.run"""

import sys
from pathlib import Path

from rugxeni import CONTRACT, PAYMENT, SET, Block, Entry, Operation, Sizes, Transaction, write

run = write(
    Sizes(instances=2, accounts=3, registers=1, transactions=2),
    balances=[10, 5, 0],
    transactions=[
        Transaction(PAYMENT, debits=[Entry(account=0, amount=4), Entry(account=1, amount=5)], credits=[Entry(account=2, amount=9)]),
        Transaction(
            CONTRACT,
            debits=[Entry(account=2, amount=6)],
            credits=[Entry(account=1, amount=6)],
            operations=[Operation(SET, register=0, value=7)],
        ),
    ],
    blocks=[
        Block(instance=1, sequence=1, rank=1, cut=[0, 0], citations=[0]),
        Block(instance=0, sequence=1, rank=2, cut=[0, 1], citations=[0, 1]),
    ],
)
Path(sys.argv[1]).write_bytes(run)
