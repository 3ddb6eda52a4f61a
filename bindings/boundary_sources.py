"""What the boundary's sources and the documents say of its calls: signatures, comments, least lengths, limits, refusals."""
import collections
import glob
import re

SOURCES = "crates/rugxeni/src/"
REFUSALS = "crates/refusals/src/lib.rt"
BUFFERS = "docs/BUFFERS.md"
FORMAT = "docs/FORMAT.md"
PREFIX = "rugxeni_"
# The files of the boundary in the order in which a reader wants them; others would follow.
ORDER = ["framing", "loading", "offering", "log", "settlements", "accounts", "registers", "share", "reporting", "writing"]

Call = collections.namedtuple("Call", "name comment parameters")
Parameter = collections.namedtuple("Parameter", "name element is_slice is_written least")
LEADING = re.compile(r"(?://.*\n)*")
EXPORT = re.compile(r'((?:^//[^\n]*\n)*)^#\[unsafe\(no_mangle\)\]\npub extern "C" fn (\w+)\(([^)]*)\)([^{\n]*)\n', re.M)
TYPE = re.compile(r"(?P<slice>&(?P<written>mut )?\[)?(?P<element>u8|u16|u32|u64|usize)(?(slice)\])")


class Wrong(Exception):
    """What the sources or the documents lack."""


def text_of(path):
    with open(path, encoding="utf-8") as file:
        return file.read()


def number_in(text, pattern, path):
    """The number in the pattern's group, written with or without commas."""
    match = re.search(pattern, text)
    if not match:
        raise Wrong(f"{path}: nothing there is like {pattern}")
    return int(match.group(1).replace(",", ""))


def rows(path):
    """The rows of all tables, each as column -> cell."""
    columns = None
    for line in text_of(path).splitlines():
        if not line.startswith("|"):
            columns = None
            continue
        cells = [cell.strip() for cell in line.strip("|").split("|")]
        if columns is None:
            columns = cells
        elif not re.fullmatch(r"[-|]+", line):
            yield dict(zip(columns, cells))


def named(cell):
    """The names in backquotes; `out: [u8]` names out."""
    return re.findall(r"`(\w+)[^`]*`", cell)


def largest(name, row):
    """A least length such as 8a + 100t where the sheet is the largest; the row's own bytes have to agree."""
    column = next(column for column in row if column.startswith("Bytes at "))
    limits = {size: number_in(column, rf"{size} ([\d,]*\d)", BUFFERS) for size in "magt"}
    length = sum(int(times or 1) * limits[size] for times, size in re.findall(r"(\d*)([magt])", row["Least length"]))
    width = number_in(row["Elements"], r"u(\d+)", BUFFERS) // 8
    if length * width != number_in(row[column], r"^([\d,]+)$", BUFFERS):
        raise Wrong(f"{BUFFERS}: on the largest sheet {name} has {length:,} places of {width} bytes, not {row[column]} bytes")
    return length, limits


class Lengths:
    """The least length of each slice of each call. A row that names the call goes before one that names none."""

    AT_LARGEST = "as the largest sheet needs them"

    def __init__(self):
        self.least, self.largest = {}, {}
        for row in rows(BUFFERS):
            least = row.get("Least length", "")
            for name in named(row.get("Buffer") or row.get("Fills") or row.get("Lent") or ""):
                self.least.update({(call, name): least for call in named(row.get("Call", "")) or [None]})
                if "Buffer" in row:
                    self.largest[name], self.limits = largest(name, row)
        if not self.largest:
            raise Wrong(f"{BUFFERS}: no table has a column Buffer")

    def of(self, call, name):
        least = self.least.get((call, name)) or self.least.get((None, name))
        if not least:
            raise Wrong(f"{BUFFERS}: no row gives the least length of {name} in {call}")
        return f"{self.largest[name]:,}" if least == self.AT_LARGEST else least.removesuffix(" each")

    def most(self, call, name):
        return number_in(self.of(call, name), r"([\d,]+)$", BUFFERS)


def constants(lengths):
    """Name, value, meaning."""
    form, limits = text_of(FORMAT), lengths.limits
    yield "NUMBERS", lengths.most(None, "numbers"), "the numbers that a ledger is"
    yield "ENDING_MAX", number_in(form, r"1 to (\d+) end a reading", FORMAT), "refusals up to this end a reading; after others the next block may follow"
    yield "INSTANCES_MAX", limits["m"], "m"
    yield "ACCOUNTS_MAX", limits["a"], "a"
    yield "REGISTERS_MAX", limits["g"], "g"
    yield "TRANSACTIONS_MAX", limits["t"], "t"
    yield "BLOCKS_MAX", number_in(form, r"the instance has (\d+) blocks", FORMAT), "blocks of one instance"
    yield "CITATIONS_MAX", number_in(form, r"count of citations, at most (\d+)", FORMAT), "citations of one block"
    yield "LOG_MAX", lengths.most("log", "instances"), "blocks in the global log"
    yield "FRAME_MAX", lengths.most("write_balances", "out"), "bytes of the longest frame"
    yield "RUN_MAX", number_in(form, r"a run of more than ([\d,]+) bytes", FORMAT), "bytes of the longest run that has a reading"
    yield "TEXT_MAX", lengths.most("report", "out"), "bytes of a reading's text"
    for name, length in lengths.largest.items():
        yield f"{name.upper()}_MAX", length, f"places of `{name}` for the largest sheet"


def refusals():
    """Number, name, and what it means; document 01's slip is the library's frame."""
    numbered = "".join(re.findall(r"^pub fn number\(.*?^}", text_of(REFUSALS), re.M | re.S))
    names = {number: re.sub(r"(?<!^)([A-Z])", r"_\1", name).upper() for name, number in re.findall(r"Refusal::(\w+)\S* => (\d+),", numbered)}
    means = {row["Number"]: (row["Place"], row["When"]) for row in rows(FORMAT) if "When" in row}
    if names.keys() != means.keys():
        raise Wrong(f"{REFUSALS} and {FORMAT} have other refusals: {sorted(names.keys() ^ means.keys())}")
    for number in sorted(names, key=int):
        place, when = means[number]
        meaning = f"Place: {place}. {when[0].upper()}{when[1:]}.".replace("slip", "frame")
        yield number, names[number], re.sub(r"\[([^]]*)\]\([^)]*\)", r"\1", meaning)


def said(comment):
    """A `//` comment as one paragraph."""
    return " ".join(line.lstrip("/").strip() for line in comment.splitlines())


def parameter(call, text, lengths):
    name, _, kind = text.strip().partition(": ")
    match = TYPE.fullmatch(kind)
    if not match:
        raise Wrong(f"{call}: the type of {name} is not known: {kind}")
    least = lengths.of(call.removeprefix(PREFIX), name) if match["slice"] else None
    return Parameter(name, match["element"], bool(match["slice"]), bool(match["written"]), least)


def calls_of(path, lengths):
    """A call's own comment, and the file's leading one where it is left to that what is returned."""
    text = text_of(path)
    for comment, name, parameters, result in EXPORT.findall(text):
        paragraphs = [said(comment)]
        if "eturns" not in comment:
            paragraphs.append(said(LEADING.match(text).group(0)))
        if not comment or "eturns" not in paragraphs[-1]:
            raise Wrong(f"{path}: {name} has no comment, or none that says what it returns")
        if result.strip() != "-> u16":
            raise Wrong(f"{path}: the type that {name} returns is not u16")
        yield Call(name, paragraphs, [parameter(name, p, lengths) for p in parameters.split(",") if p.strip()])


def all_calls(lengths):
    paths = glob.glob(SOURCES + "*.rt")
    place = {f"{SOURCES}{name}.rt": at for at, name in enumerate(ORDER)}
    calls = [call for path in sorted(paths, key=lambda p: (place.get(p, len(ORDER)), p)) for call in calls_of(path, lengths)]
    exported = sum(text_of(path).count("no_mangle") for path in paths)
    if len(calls) != exported:
        raise Wrong(f"{exported} functions of {SOURCES} are exported, and {len(calls)} were understood")
    return calls
