"""Tests of rugxeni.py, its examples and link.sh: python3 bindings/python/test.py, once link.sh has run."""

import ctypes
import dataclasses
import pickle
import random
import re
import struct
import unittest
from concurrent.futures import ThreadPoolExecutor
from pathlib import Path
from unittest import mock

import rugxeni
import rugxeni_ledger
from rugxeni import Accepted, Block, Entry, Operation, Refused, Sizes, Transaction, read, text, write
from test_examples import READABLE, ROOT, Pictures, Programs, Tables  # noqa: F401 (unittest finds them here)

RUNS = {path.stem: path.read_bytes() for path in sorted((ROOT / "examples").glob("*.run"))}
READINGS = {name: (ROOT / "examples" / f"{name}.reading").read_text() for name in RUNS}
HEADER = ROOT / "bindings/c/rugxeni.h"
DAMAGED_RUNS = 4000


def transaction_of(body):
    kind, debits, credits, _ = body[:4]
    operations = 4 + 6 * (debits + credits)
    entries = [Entry(*values) for values in struct.iter_unpack("<HI", body[4:operations])]
    return Transaction(kind, entries[:debits], entries[debits:], [Operation(*values) for values in struct.iter_unpack("<BBI", body[operations:])])


def block_of(body, instances):
    instance, sequence, rank, _ = struct.unpack_from("<HHIH", body)
    lists = [number for number, in struct.iter_unpack("<H", body[10:])]
    return Block(instance, sequence, rank, lists[:instances], lists[instances:])


def parsed(run):
    """What `write` is given for this run; by docs/FORMAT.md, without the library."""
    bodies, at = {1: [], 2: [], 3: [], 4: []}, 0
    while at < len(run):
        length, kind = struct.unpack_from("<IH", run, at)
        bodies[kind].append(run[at + 6 : at + 4 + length])
        at += 4 + length
    sizes = Sizes(*struct.unpack("<4H", bodies[1][0]))
    balances = [balance for balance, in struct.iter_unpack("<Q", bodies[2][0])]
    return sizes, balances, list(map(transaction_of, bodies[3])), [block_of(body, sizes.instances) for body in bodies[4]]


def frame(kind, body):
    return struct.pack("<IH", 2 + len(body), kind) + body


def damaged(run, chance):
    """A run with a few bytes changed, left out or put in, or cut off."""
    data = bytearray(run)
    for _ in range(chance.randint(1, 3)):
        at = chance.randrange(len(data) + 1)
        way = chance.randrange(5)
        if way < 2:
            data[at : at + 1] = bytes([chance.choice([0, 1, 2, 3, 4, 255, chance.randrange(256)])])
        elif way == 2:
            data[at : at + 1] = bytes((byte ^ 1 << chance.randrange(8)) for byte in data[at : at + 1])
        elif way == 3:
            data[at : at + chance.randint(0, 30)] = data[chance.randrange(len(data) + 1) :][: chance.randint(0, 30)]
        elif chance.random() < 0.3:
            del data[at:]
    return bytes(data)


class Reads(unittest.TestCase):
    def same(self, run):
        """`read` against `text`. Returns whether there is a reading."""
        lines = text(run)
        try:
            self.assertEqual(read(run).text(), lines)
            return True
        except Refused as refused:
            self.assertEqual(f"refused {refused.number} {refused.place}", lines.splitlines()[-1])
            self.assertIn(refused.number, range(1, 8))
            return False

    def test_examples(self):
        for name, run in RUNS.items():
            self.assertEqual(text(run), READINGS[name], name)
            self.assertEqual(self.same(run), name in READABLE, name)

    def test_damaged_runs(self):
        chance, readable = random.Random(12), 0
        for _ in range(DAMAGED_RUNS):
            readable += self.same(damaged(RUNS[chance.choice(["worked", "unseen", "group"])], chance))
        self.assertTrue(DAMAGED_RUNS / 10 < readable < DAMAGED_RUNS * 9 / 10, readable)

    def test_ends_at(self):
        """A bad frame between two blocks of the worked run, or in the place of its first transaction: nothing after it counts."""
        block = struct.pack("<HHIHHH", 0, 1, 2, 33, 0, 1) + bytes(2 * 33)
        debits = struct.pack("<HIHIHI", 0, 4, 0, 5, 2, 9), struct.pack("<HIHIHI", 0, 4, 1, 6, 2, 9)
        for number, at, bad in (
            (1, 122, struct.pack("<IH", 8194, 4)),
            (2, 122, struct.pack("<IH", 1, 4)),
            (3, 122, frame(9, b"")),
            (3, 122, RUNS["worked"][44:72]),
            (4, 122, frame(4, block[:-2])),
            (5, 122, frame(4, block)),
            (5, 44, frame(3, bytes([2, 2, 1, 0]) + debits[0])),
            (6, 44, frame(3, bytes([0, 2, 1, 0]) + debits[0])),
            (7, 44, frame(3, bytes([0, 2, 1, 0]) + debits[1])),
        ):
            run = RUNS["worked"][:at] + bad + RUNS["worked"][72 if at == 44 else at :]
            self.assertFalse(self.same(run))
            self.assertEqual(text(run).splitlines()[-1], f"refused {number} {at}")

    def test_blocks(self):
        for name in READABLE:
            reading = read(RUNS[name])
            offered = zip(parsed(RUNS[name])[3], reading.answers)
            accepted = [block for block, answer in offered if isinstance(answer, Accepted)]
            own = [[block for block in accepted if block.instance == i] for i in range(reading.sizes.instances)]
            self.assertEqual(reading.blocks, own, name)

    def test_any_length(self):
        longer = RUNS["full"] + RUNS["full"][-6:]
        self.assertEqual(text(longer), "long\n")
        with self.assertRaises(Refused) as caught:
            read(longer)
        self.assertEqual(caught.exception.place, len(RUNS["full"]))
        sizes, balances, transactions, blocks = parsed(RUNS["full"])
        again = write(sizes, balances, transactions, blocks + blocks[-1:])
        self.assertEqual(read(again).log, read(RUNS["full"]).log)

    def test_kinds_of_bytes(self):
        run = RUNS["worked"]
        for same in (bytearray(run), memoryview(run), memoryview(run + run)[: len(run)]):
            self.assertEqual(read(same).text(), READINGS["worked"])
            self.assertEqual(text(same), READINGS["worked"])

    def test_no_bytes(self):
        self.assertFalse(self.same(b""))
        for wrong in ("run", 7, None, [1, 2]):
            self.assertRaises(TypeError, read, wrong)
            self.assertRaises(TypeError, text, wrong)

    def test_threads(self):
        with ThreadPoolExecutor(4) as pool:
            for told in pool.map(lambda name: (name, read(RUNS[name]).text()), ["full"] * 8 + ["group"] * 40):
                self.assertEqual(told, (told[0], READINGS[told[0]]))

    def test_carried_elsewhere(self):
        reading = read(RUNS["group"])
        self.assertEqual(pickle.loads(pickle.dumps(reading)), reading)
        with self.assertRaises(Refused) as caught:
            read(RUNS["cut-short"])
        carried = pickle.loads(pickle.dumps(caught.exception))
        self.assertEqual((carried.number, carried.place, str(carried)), (1, 122, str(caught.exception)))


class Writes(unittest.TestCase):
    def setUp(self):
        self.sizes, self.balances, self.transactions, self.blocks = parsed(RUNS["worked"])

    def write(self, **changed):
        """The worked run with some of it changed."""
        given = dict(sizes=self.sizes, balances=self.balances, transactions=self.transactions, blocks=self.blocks)
        return write(**{**given, **changed})

    def with_sizes(self, **changed):
        return self.write(sizes=dataclasses.replace(self.sizes, **changed))

    def with_contract(self, **changed):
        return self.write(transactions=[self.transactions[0], dataclasses.replace(self.transactions[1], **changed)])

    def with_block(self, **changed):
        return self.write(blocks=[dataclasses.replace(self.blocks[0], **changed)])

    def test_examples(self):
        for name in READABLE:
            self.assertEqual(write(*parsed(RUNS[name])), RUNS[name], name)
        self.assertEqual(write(self.sizes, iter(self.balances), iter(self.transactions), iter(self.blocks)), RUNS["worked"])

    def test_blocks_are_not_judged(self):
        run = self.with_block(instance=65_535, sequence=65_535, rank=2**32 - 1, cut=[65_535], citations=[65_535] * 32)
        self.assertEqual(read(run).answers, [rugxeni.Refusal(8, 0)])

    def refused(self, number, frame, place, write_it, **changed):
        with self.assertRaises(Refused) as caught:
            write_it(**changed)
        self.assertEqual((caught.exception.number, caught.exception.place, caught.exception.frame), (number, place, frame), changed)

    def test_sheet_refused(self):
        for field, value in (("instances", 0), ("instances", 17), ("accounts", 0), ("accounts", 1025), ("registers", 65), ("transactions", 1025)):
            self.refused(5, "header", 0, self.with_sizes, **{field: value})
        self.refused(4, "balances", 0, self.write, balances=[10, 5])
        self.refused(5, "balances", 0, self.write, balances=[10, 5, 2**40 + 1])
        self.refused(3, "transaction 2", 0, self.write, transactions=self.transactions * 2)
        self.refused(1, "", 72, self.write, transactions=self.transactions[:1])

    def test_transactions_refused(self):
        one, other, operation = Entry(2, 6), Entry(1, 6), Operation(rugxeni.SET, 0, 7)
        for number, changed in (
            (5, dict(kind=2)),
            (5, dict(kind=rugxeni.PAYMENT)),
            (5, dict(debits=[])),
            (5, dict(debits=[Entry(account, 1) for account in range(5)])),
            (5, dict(credits=[other] * 255)),
            (5, dict(debits=[Entry(3, 6)])),
            (5, dict(debits=[Entry(2, 0)])),
            (5, dict(operations=[operation] * 9)),
            (5, dict(operations=[dataclasses.replace(operation, code=5)])),
            (5, dict(operations=[dataclasses.replace(operation, register=1)])),
            (6, dict(debits=[one, one])),
            (7, dict(credits=[one, other])),
        ):
            self.refused(number, "transaction 1", 0, self.with_contract, **changed)

    def test_blocks_refused(self):
        self.refused(5, "block 0", 0, self.with_block, citations=[0] * 33)
        self.refused(5, "block 0", 0, self.with_block, cut=[0, 0, 1])

    def with_debit(self, **changed):
        return self.with_contract(debits=[dataclasses.replace(Entry(2, 6), **changed)])

    def with_operation(self, **changed):
        return self.with_contract(operations=[dataclasses.replace(Operation(rugxeni.SET, 0, 7), **changed)])

    def test_numbers_that_do_not_fit(self):
        fields = [(self.with_sizes, field.name, 16) for field in dataclasses.fields(Sizes)]
        fields += [(self.with_contract, "kind", 8), (self.with_debit, "account", 16), (self.with_debit, "amount", 32)]
        fields += [(self.with_operation, "code", 8), (self.with_operation, "register", 8), (self.with_operation, "value", 32)]
        fields += [(self.with_block, "instance", 16), (self.with_block, "sequence", 16), (self.with_block, "rank", 32)]
        for write_it, field, bits, wrong in [(*known, wrong) for known in fields for wrong in (-1, 2 ** known[2], 2**64, 1.0, "1", None)]:
            with self.assertRaisesRegex(ValueError, f"{field}.*is not a whole number from 0 to {2 ** bits - 1}"):
                write_it(**{field: wrong})

    def test_lists_with_numbers_that_do_not_fit(self):
        for wrong in (-1, 2**64, 0.5, "0"):
            self.assertRaises(ValueError, self.write, balances=[10, wrong, 0])
            self.assertRaises(ValueError, self.with_block, cut=[0, wrong])
            self.assertRaises(ValueError, self.with_block, citations=[wrong])
        self.assertRaises(ValueError, self.with_block, cut=[0, 2**16])
        self.assertRaises(ValueError, self.with_block, citations=[2**16])

    def test_lists_that_are_too_long(self):
        self.assertRaises(ValueError, self.with_contract, debits=[Entry(2, 6)] * 256)
        self.assertRaises(ValueError, self.with_contract, operations=[Operation(2, 0, 7)] * 256)
        self.assertRaises(ValueError, self.with_block, citations=[0] * 65_536)
        self.assertRaises(ValueError, self.with_block, cut=[0] * 17)


class Boundary(unittest.TestCase):
    """rugxeni_ledger.py has no table of signatures: what it passes is compared with the C header, which is made from the library's source."""

    def header(self):
        return re.sub(r"/\*.*?\*/", "", HEADER.read_text(), flags=re.DOTALL)

    def prototypes(self):
        kinds = {"uint8_t": ctypes.c_uint8, "uint16_t": ctypes.c_uint16, "uint32_t": ctypes.c_uint32, "uint64_t": ctypes.c_uint64, "size_t": ctypes.c_size_t}
        calls = re.findall(r"uint16_t\s+(rugxeni_\w+)\(([^)]*)\)", self.header())
        return {
            name: [(kinds[kind], bool(pointer)) for kind, pointer in re.findall(r"(\w+)\s*(\*?)\s*\w+\s*(?:,|$)", parameters.strip())]
            for name, parameters in calls
        }

    def passed(self):
        """The calls of a run that is written and read: their arguments' kinds, as they go over."""
        calls, call = {}, rugxeni_ledger.call

        def watched(name, *arguments):
            kinds = (((a._type_, True), (ctypes.c_size_t, False)) if isinstance(a, ctypes.Array) else ((type(a), False),) for a in arguments)
            calls[name] = [kind for argument in kinds for kind in argument]
            return call(name, *arguments)

        with mock.patch.object(rugxeni_ledger, "call", watched):
            run = write(*parsed(RUNS["worked"]))
            self.assertEqual(read(run).text(), text(run))
        return calls

    def test_arguments(self):
        prototypes, passed = self.prototypes(), self.passed()
        named = {name for module in (rugxeni, rugxeni_ledger) for name in re.findall(r'"(rugxeni_\w+)"', Path(module.__file__).read_text())}
        self.assertEqual(set(passed), named)
        for name, kinds in passed.items():
            self.assertEqual(kinds, prototypes[name], name)

    def test_constants(self):
        said = {name: int(value) for name, value in re.findall(r"\bRUGXENI_(\w+)(?: =)? (\d+)", self.header())}
        own = {name: value for module in (rugxeni_ledger, rugxeni) for name, value in vars(module).items() if name.isupper() and isinstance(value, int)}
        for name in set(own) - {"HEIGHTS", "NO_CITATION"}:
            self.assertEqual(own[name], said[name], name)
        self.assertEqual([said[name.upper()] for name in rugxeni.SETTLEMENTS], [0, 1, 2])


if __name__ == "__main__":
    unittest.main()
