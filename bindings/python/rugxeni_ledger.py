"""The library's calls over ctypes, and a ledger with the buffers that it lends. Programs use rugxeni.py, which makes values of what is told here."""

from __future__ import annotations

import ctypes
import functools
import operator
import os
from pathlib import Path
from typing import Any, Iterable, List, Optional, Tuple

U8, U16, U32, U64, USIZE = ctypes.c_uint8, ctypes.c_uint16, ctypes.c_uint32, ctypes.c_uint64, ctypes.c_size_t

# What is lent is as long as the largest sheet needs it (docs/BUFFERS.md). These constants and their names are those of the C header.
INSTANCES_MAX, ACCOUNTS_MAX, REGISTERS_MAX, TRANSACTIONS_MAX = 16, 1024, 64, 1024
BLOCKS_MAX, CITATIONS_MAX, LOG_MAX = 128, 32, 2048
SHEET_MAX, RANKS_MAX, CUTS_MAX, CITES_MAX, GOOD_MAX = 110_592, 2048, 32_768, 65_536, 65_536
COUNTS_MAX, TABLE_MAX, ORDER_MAX = 2048, 1024, 2048
FRAME_MAX, TEXT_MAX = 8198, 262_144
NUMBERS = 22  # of a ledger: four sizes, two of the loading, then the accepted blocks of each instance
NOTHING_LEFT = 255  # in a refusal's stead: no frame is left to load or to offer

HEIGHTS = 6  # where the accepted blocks stand among the numbers
NO_CITATION = 65_535  # a place of `cites` that holds none

# Why a run cannot be read, or a frame cannot be written.
REASONS = {
    1: "the bytes end too early, or the sheet is not complete",
    2: "the length of a frame is out of range",
    3: "a kind of frame that is unknown or not due",
    4: "a length that is not what the kind and the counts say",
    5: "a field out of range",
    6: "an account twice among the debits or among the credits",
    7: "debits and credits differ in sum",
}


class Refused(Exception):
    """A run that cannot be read, or a frame that cannot be written: `number` and `place` as docs/FORMAT.md has them; `frame` says what was to be written."""

    def __init__(self, number: int, place: int, frame: str = "") -> None:
        super().__init__(number, place, frame)
        self.number, self.place, self.frame = number, place, frame

    def __str__(self) -> str:
        frame = f", {self.frame}" if self.frame else ""
        return f"refused {self.number} {self.place}{frame}: {REASONS.get(self.number, 'see docs/FORMAT.md')}"


@functools.lru_cache(maxsize=None)
def library() -> ctypes.CDLL:
    """The shared object: RUGXENI_SO, else librugxeni.so beside this file, else where link.sh puts it."""
    here = Path(__file__).resolve().parent
    named = os.environ.get("RUGXENI_SO")
    places = [Path(named)] if named else [here / "librugxeni.so", here.parent.parent / "target/python/librugxeni.so"]
    for place in places:
        if place.is_file():
            return ctypes.CDLL(str(place.resolve()))
    looked = " nor ".join(str(place) for place in places)
    raise FileNotFoundError(f"no {looked}: run `bash bindings/python/link.sh`, or set RUGXENI_SO to the path of librugxeni.so")


def call(name: str, *arguments: Any) -> int:
    """A call of the library. An array goes over as a slice, its pointer and its length; a number by value, as wide as its ctypes class says."""
    passed: List[Any] = []
    for argument in arguments:
        passed.append(argument)
        if isinstance(argument, ctypes.Array):
            passed.append(USIZE(len(argument)))
    function = getattr(library(), name)
    function.restype = U16
    return function(*passed)


def lent(run: Any) -> ctypes.Array:
    """A copy of a run's bytes, so that nobody else writes them during a call."""
    data = memoryview(run).tobytes()
    return (U8 * len(data)).from_buffer_copy(data)


def as_number(width: Any, value: Any, name: str) -> Any:
    """A whole number of that width; ctypes alone would cut off what does not fit."""
    try:
        whole = operator.index(value)
    except TypeError:
        whole = -1
    most = 256 ** ctypes.sizeof(width) - 1
    if not 0 <= whole <= most:
        raise ValueError(f"{name}: {value!r} is not a whole number from 0 to {most}")
    return width(whole)


def as_array(width: Any, values: Iterable[Any], name: str) -> ctypes.Array:
    checked = [as_number(width, value, name) for value in values]
    return (width * len(checked))(*checked)


class Ledger:
    """A ledger of the library. Its buffers are its own; one ledger is for one thread."""

    def __init__(self) -> None:
        self.numbers = (U16 * NUMBERS)()
        self.told = (U64 * 2)()
        self.sheet, self.good = (U8 * SHEET_MAX)(), (U8 * GOOD_MAX)()
        self.ranks, self.cuts, self.cites = (U32 * RANKS_MAX)(), (U16 * CUTS_MAX)(), (U16 * CITES_MAX)()
        self.counts, self.table, self.order = (U32 * COUNTS_MAX)(), (U8 * TABLE_MAX)(), (U16 * ORDER_MAX)()

    def buffers(self) -> Tuple[ctypes.Array, ...]:
        """What an offer lends."""
        return (self.sheet, self.ranks, self.cuts, self.cites, self.good, self.counts, self.table, self.order)

    def done(self, answer: int, frame: str = "") -> Tuple[int, int]:
        """What a call told that answered 0; else its refusal."""
        place, value = self.told
        if answer:
            raise Refused(answer, place, frame)
        return place, value

    def load_frame(self, run: ctypes.Array, at: int) -> Optional[int]:
        """Loads a frame of the sheet. Returns where the next one begins, None once the sheet is complete."""
        answer = call("rugxeni_load", self.numbers, run, USIZE(at), self.sheet, self.told)
        return None if answer == NOTHING_LEFT else self.done(answer)[0]

    def offer_frame(self, run: ctypes.Array, at: int) -> Tuple[int, int]:
        """Offers a frame. Returns the answer's number and its place."""
        answer = call("rugxeni_offer_frame", self.numbers, *self.buffers(), run, USIZE(at), self.told)
        return answer, self.told[0]

    def next_frame(self, run: ctypes.Array, at: int) -> int:
        return self.done(call("rugxeni_frame", run, USIZE(at), self.told))[0]

    def sizes(self) -> List[int]:
        return self.numbers[:4]

    def heights(self) -> List[int]:
        """How many blocks of each instance are accepted."""
        return self.numbers[HEIGHTS : HEIGHTS + self.numbers[0]]

    def block(self, instance: int, index: int) -> Tuple[int, List[int], List[int]]:
        """The rank, the cut and the citations of an accepted block."""
        row = BLOCKS_MAX * instance + index
        cut = self.cuts[INSTANCES_MAX * row : INSTANCES_MAX * row + self.numbers[0]]
        cites = self.cites[CITATIONS_MAX * row : CITATIONS_MAX * (row + 1)]
        return self.ranks[row], cut, [cited for cited in cites if cited != NO_CITATION]

    def read(self, name: str, *filled: ctypes.Array) -> int:
        """Takes a reading of the full view into the buffers. Returns the value told."""
        buffers = [buffer for buffer in self.buffers() if buffer is not self.cuts]
        return self.done(call(name, self.numbers, *buffers, *filled, self.told))[1]

    def accounts(self) -> List[Tuple[int, int]]:
        free, held = (U64 * ACCOUNTS_MAX)(), (U64 * ACCOUNTS_MAX)()
        self.read("rugxeni_accounts", free, held)
        return list(zip(free, held))[: self.numbers[1]]

    def registers(self) -> List[int]:
        values = (U32 * REGISTERS_MAX)()
        self.read("rugxeni_registers", values)
        return values[: self.numbers[2]]

    def settlements(self) -> List[int]:
        statuses = (U8 * TRANSACTIONS_MAX)()
        self.read("rugxeni_settlements", statuses)
        return statuses[: self.numbers[3]]

    def share(self) -> int:
        """Settled transactions in thousandths of all, to the nearest and a tie to the even figure; 1000 where there are none."""
        return self.read("rugxeni_share")

    def log(self) -> List[Tuple[int, int]]:
        instances, sequences = (U16 * LOG_MAX)(), (U16 * LOG_MAX)()
        _, length = self.done(call("rugxeni_log", self.numbers, self.ranks, instances, sequences, self.told))
        return list(zip(instances, sequences))[:length]

    def report(self, run: ctypes.Array) -> bytes:
        """What `readrun` prints. It leaves another ledger in the buffers."""
        out = (U8 * TEXT_MAX)()
        length, _ = self.done(call("rugxeni_report", run, *self.buffers(), out, self.told))
        return bytes(out)[:length]

    def write(self, frame: str, name: str, *values: Any) -> bytes:
        """The bytes of a frame; the sheet so far is the one that was loaded."""
        out = (U8 * FRAME_MAX)()
        length, _ = self.done(call(name, self.numbers, *values, out, self.told), frame)
        return bytes(out)[:length]

    def write_sheet(self, frame: str, name: str, *values: Any) -> bytes:
        """The bytes of the sheet's next frame, which is loaded too."""
        written = self.write(frame, name, *values)
        self.load_frame(lent(written), 0)
        return written
