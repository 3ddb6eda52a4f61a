"""Recorded Multi-BFT runs, read and written by the proved library. Standard library only; Python 3.9 or later.

    read(run)       the reading of a run, as lists; Refused where the run is damaged
    text(run)       what `readrun` prints of it
    write(...)      the bytes of a run

A run is any bytes-like object; a str is a TypeError. Each call has buffers of its own and a copy of the run, so threads may call at once.
The shared object is the file that RUGXENI_SO names, else librugxeni.so beside this file, else in target/python, where link.sh puts it.
It is loaded at the first call.
"""

from __future__ import annotations

from dataclasses import dataclass
from typing import Any, Iterable, Iterator, List, Tuple, Union

from rugxeni_ledger import INSTANCES_MAX, NOTHING_LEFT, U8, U16, U32, U64, Ledger, Refused, as_array, as_number, lent

PAYMENT, CONTRACT = 0, 1  # kinds of a transaction
IS_EQUAL, IS_AT_LEAST, SET, ADD, SUBTRACT = range(5)  # codes of an operation
SETTLEMENTS = ("open", "paid", "returned")
ENDING_MAX = 7  # refusals up to this end a reading

# A transaction's lists, and how wide each of their columns is.
ENTRY = {"account": U16, "amount": U32}
LISTS = {"debits": ENTRY, "credits": ENTRY, "operations": {"code": U8, "register": U8, "value": U32}}


@dataclass(frozen=True)
class Sizes:
    """The header of a run."""

    instances: int
    accounts: int
    registers: int
    transactions: int


@dataclass(frozen=True)
class Entry:
    """A debit or a credit."""

    account: int
    amount: int


@dataclass(frozen=True)
class Operation:
    """An operation of a contract: IS_EQUAL, IS_AT_LEAST, SET, ADD or SUBTRACT on a register."""

    code: int
    register: int
    value: int


@dataclass(frozen=True)
class Transaction:
    """A PAYMENT or a CONTRACT; a payment has no operations."""

    kind: int
    debits: Tuple[Entry, ...]
    credits: Tuple[Entry, ...]
    operations: Tuple[Operation, ...] = ()

    def __post_init__(self) -> None:
        _freeze(self, "debits", "credits", "operations")


@dataclass(frozen=True)
class Block:
    """A block. Instances count from 0, sequence numbers from 1; entries missing at the end of a cut are 0."""

    instance: int
    sequence: int
    rank: int
    cut: Tuple[int, ...]
    citations: Tuple[int, ...] = ()

    def __post_init__(self) -> None:
        _freeze(self, "cut", "citations")


def _freeze(value: Any, *fields: str) -> None:
    """Any iterable will do for a list; it is kept as a tuple."""
    for field in fields:
        object.__setattr__(value, field, tuple(getattr(value, field)))


@dataclass(frozen=True)
class Accepted:
    """The answer to a block that was accepted."""

    instance: int
    sequence: int

    def __str__(self) -> str:
        return f"ok {self.instance} {self.sequence}"


@dataclass(frozen=True)
class Refusal:
    """The answer to a block that was turned away: number and place as docs/FORMAT.md has them."""

    number: int
    place: int

    def __str__(self) -> str:
        return f"refused {self.number} {self.place}"


Answer = Union[Accepted, Refusal]


@dataclass(frozen=True)
class Account:
    """What can be spent, and what open transactions have reserved."""

    free: int
    held: int


@dataclass(frozen=True)
class Reading:
    """The reading of a run; lists of instances, transactions, accounts and registers go by number, from 0 up."""

    sizes: Sizes
    answers: List[Answer]  # one for each block of the run
    blocks: List[List[Block]]  # the accepted ones of each instance: number n at n - 1
    log: List[Tuple[int, int]]  # instance and sequence number, in log order
    settlements: List[str]  # "open", "paid" or "returned"
    accounts: List[Account]
    registers: List[int]
    share: int  # paid and returned transactions in thousandths, to the nearest and a tie to the even figure; 1000 where there are none

    def text(self) -> str:
        """The lines that `readrun` prints."""
        sizes = self.sizes
        lines = [f"run {sizes.instances} {sizes.accounts} {sizes.registers} {sizes.transactions}"]
        lines += [str(answer) for answer in self.answers]
        lines += [f"log {instance} {sequence}" for instance, sequence in self.log]
        lines += [f"tx {place} {settlement}" for place, settlement in enumerate(self.settlements)]
        lines += [f"account {place} {account.free} {account.held}" for place, account in enumerate(self.accounts)]
        lines += [f"register {place} {value}" for place, value in enumerate(self.registers)]
        lines.append(f"share {self.share}")
        return "".join(line + "\n" for line in lines)


def read(run: Any) -> Reading:
    """The reading of a run, however long. Raises Refused, with a number from 1 to 7, where the run is damaged."""
    data, ledger = lent(run), Ledger()
    answers = list(_answers(ledger, data, _load(ledger, data)))
    return Reading(
        Sizes(*ledger.sizes()),
        answers,
        blocks=[[Block(i, n + 1, *ledger.block(i, n)) for n in range(height)] for i, height in enumerate(ledger.heights())],
        log=ledger.log(),
        settlements=[SETTLEMENTS[status] for status in ledger.settlements()],
        accounts=[Account(free, held) for free, held in ledger.accounts()],
        registers=ledger.registers(),
        share=ledger.share(),
    )


def _load(ledger: Ledger, data: Any) -> int:
    """Loads the sheet. Returns where the blocks begin."""
    at = 0
    while (end := ledger.load_frame(data, at)) is not None:
        at = end
    return at


def _answers(ledger: Ledger, data: Any, at: int) -> Iterator[Answer]:
    """Offers the blocks from an offset on. An accepted one is the last of the instance that has grown."""
    while True:
        before = ledger.heights()
        answer, place = ledger.offer_frame(data, at)
        if answer == NOTHING_LEFT:
            return
        if 0 < answer <= ENDING_MAX:
            raise Refused(answer, place)
        grown = [Accepted(i, height) for i, height in enumerate(ledger.heights()) if height != before[i]]
        yield Refusal(answer, place) if answer else grown[0]
        at = ledger.next_frame(data, at)


def text(run: Any) -> str:
    """What `readrun` prints: also of a damaged run, and the line `long` for one of more than 65,536 bytes."""
    return Ledger().report(lent(run)).decode("ascii")


def write(sizes: Sizes, balances: Iterable[int], transactions: Iterable[Transaction] = (), blocks: Iterable[Block] = ()) -> bytes:
    """The bytes of a run: header, balances, transactions, blocks. A block is written as it is; whether it will be accepted is the reader's to say.

    Raises ValueError for a number that does not fit its field and for a list that is too long for its count (255 entries of a transaction, 65,535 citations)
    or for a cut (16); Refused for what the library's writers refuse, and with number 1 where transactions are missing.
    """
    ledger = Ledger()
    sheet = b"".join(ledger.write_sheet(*frame) for frame in _sheet(sizes, balances, transactions))
    ledger.load_frame(lent(sheet), len(sheet))  # refused where the sheet is not complete
    return sheet + b"".join(ledger.write(*frame) for frame in _blocks(blocks))


def _sheet(sizes: Sizes, balances: Iterable[int], transactions: Iterable[Transaction]) -> Iterator[Tuple[Any, ...]]:
    """The frames of the sheet: what each is, the call that writes it, the values of the call."""
    fields = ("instances", "accounts", "registers", "transactions")
    yield ("header", "rugxeni_write_header", *(as_number(U16, getattr(sizes, field), field) for field in fields))
    yield "balances", "rugxeni_write_balances", as_array(U64, balances, "balance")
    for place, transaction in enumerate(transactions):
        frame = f"transaction {place}"
        yield (frame, "rugxeni_write_transaction", *_transaction_values(transaction, frame))


def _blocks(blocks: Iterable[Block]) -> Iterator[Tuple[Any, ...]]:
    """The frames of the blocks, in the same way."""
    for place, block in enumerate(blocks):
        frame = f"block {place}"
        yield (frame, "rugxeni_write_block", *_block_values(block, frame))


def _transaction_values(transaction: Transaction, frame: str) -> List[Any]:
    """Kind and counts, then each list column by column, as the call has them."""
    lists = [(field, getattr(transaction, field), columns) for field, columns in LISTS.items()]
    counts = [as_number(U8, len(entries), f"{frame}, number of {field}") for field, entries, _ in lists]
    columns = [
        as_array(width, [getattr(entry, column) for entry in entries], f"{frame}, {column} in {field}")
        for field, entries, widths in lists
        for column, width in widths.items()
    ]
    return [as_number(U8, transaction.kind, f"{frame}, kind"), *counts, *columns]


def _block_values(block: Block, frame: str) -> List[Any]:
    if len(block.cut) > INSTANCES_MAX:
        raise ValueError(f"{frame}, cut: {len(block.cut)} entries, and a cut has at most {INSTANCES_MAX}")
    return [
        as_number(U16, block.instance, f"{frame}, instance"),
        as_number(U16, block.sequence, f"{frame}, sequence"),
        as_number(U32, block.rank, f"{frame}, rank"),
        as_number(U16, len(block.citations), f"{frame}, number of citations"),
        as_array(U16, block.cut, f"{frame}, cut"),
        as_array(U16, block.citations, f"{frame}, citations"),
    ]
