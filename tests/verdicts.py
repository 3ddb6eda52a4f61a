"""What an error of the prover says about a wrong engine.

A refusal counts only where the prover says of a stated fact that it could not have it. That a proof's own text no longer fits the code (a field that is gone,
a λ with other binders, an obligation that another one has replaced) says nothing: the same error would meet a body that the contract admits. Nor is a
failed proof a disproof, whatever it says: what was changed is also run or computed, and has to be seen to be wrong (tests/witness/). An error is one of

    fact     a goal that the prover tried and could not have, by one of the wordings below
    open     nothing is said: what it rests on was not admitted, a step of the proof did not apply, the prover came to a bound of its own, or a slice's
             length is carried on from something else
    shape    everything else

and a wrong body is refused for a fact where its own function's proof has a fact and no shape among its errors. Where the prover says itself that a proof
would do with a definition opened, that is shape, too. A body with a statement more has an obligation more, so that its proof cannot be put together; of
such a body that one error does not count, neither way.

A goal to which no file has an answer is tried by `search`. It is a fact, too, where that finds no proof ("it is not proved that ..", and the function's line
names the goal). Some of these lines say that the facts known there allow values at which the goal is false: VALUES, the stronger word, which a body of another
shape needs where no file has anything of its function's proof, since a search that closes the right body says of another shape nothing. A loop that asks for
another measure or invariant is shape. The names of goals and of what is known there have the test that leads to them, with its numbers and its `!`
(`returns-then-at-lt16`, `if-not-is_fine`): an answer to a goal that is gone, or one that speaks of a test that is gone, is open where the prover has that name
but for numbers and `not`, and else shape. Such an engine is refused where a goal of that test is left to which no proof is found.
"""
import re

FOLLOWS = re.compile(r"was not admitted|declarations? that depends? on .* (was|were) not checked")
FACTS = [
    # numbers with which everything known holds and the goal does not
    re.compile(r"`omega`: .*does not follow from what it\s+read", re.S),
    re.compile(r"`grind`: the goal does not follow"),
    re.compile(r"`grind` found no proof"),
    re.compile(r"`search`: no proof of "),
    # a proof of one proposition where another is asked for
    re.compile(r"the two (types|sides) ((first differ|differ only) where|agree until one ends)"),
    re.compile(r"the two types are `"),
    re.compile(r"^expected type `"),
    re.compile(r"≟ .*does not hold", re.S),
    # an equation that is left, and whose sides are not the same
    re.compile(r"what it leaves must be a path whose two ends are equal, and `.*?`\s+is none", re.S),
    re.compile(r"`cc`: the equations do not join "),
]
OPEN = [
    re.compile(r"^`rw`: no (part of the goal|occurrence of) "),
    re.compile(r"^`simp`: no equation of the list has an instance in the goal "),
    re.compile(r"`cc` met a bound of its own"),
    re.compile(r"`(omega|grind|search)` (gave up|was given up)"),
]
# Another proposition is no fact where a slice's length is carried on, and where the proof is put together it is another obligation.
# (The functions of a cycle of calls have one declaration, `+even+odd-spec`, with all that is to be shown in it.)
MISMATCH = FACTS[4:8]
# what is said of a function where the search for a goal without an answer does not do, of each such goal, and of a loop that has no measure or invariant
UNCLOSED = "`search` did not prove"
GOAL = re.compile(r"note: src/\S+:\d+:\d+: (?:it is )?not proved that .*\(`([^`]+)`\)(.*)")
VALUES = "allow values at which this goal is false"
# an answer whose goal is gone, and the goals that there are
GONE = re.compile(r"module `[^`]*\.Goals` has no `([^`]+)` that can be named")
NO_TEST = re.compile(r"has no field `(if-[^`]+)`")
ASKED = re.compile(r"^help: `Goals` has no `([^`]+)`; rattle asks for (.*?)(?:; |$)", re.M)
UNCHOSEN = re.compile(r"\ban? (measure|invariant)\b|\binvariants in ")
PUT_TOGETHER = re.compile(r"^[^+].*-spec$")
CARRIED_ON = re.compile(r"^same-length(-\d+)?$")
# the laws of the clauses restate them, so that none can change alone: there every other clause is refused, a right one, too
RESTATED = "proofs/Clauses.antt"


def verdict(declaration, words):
    if FOLLOWS.search(words):
        return "open"
    if any(kind.search(words) for kind in MISMATCH):
        if PUT_TOGETHER.match(declaration or ""):
            return "shape"
        if CARRIED_ON.match(declaration or ""):
            return "open"
    if any(kind.search(words) for kind in FACTS):
        return "fact"
    return "open" if any(kind.search(words) for kind in OPEN) else "shape"


def but_for_numbers(name):
    """A goal's or a test's name, but for the numbers and the `!` of tests."""
    return re.sub(r"\d+", "0", name.replace("-not-", "-"))


def test_of(name):
    """The test that leads to a goal, as its name has it; empty where none does."""
    m = re.search(r"-(?:then|else)-.*", but_for_numbers(name))
    return m[0] if m else ""


def is_renamed(gone, names):
    """Whether one of the names is the one that is gone but for numbers and `not`, or that of another goal behind the same test."""
    return any(but_for_numbers(gone) == but_for_numbers(name) or (test_of(gone) and test_of(gone) == test_of(name)) for name in names if name != gone)


class Log:
    """The errors of one check, by file, and the goals of functions to which no answer was found."""

    def __init__(self, crate, text):
        # what the prover found to hold after all, if only a definition were opened
        self.held = set(re.findall(r"^(?:\./)?(proofs/\S+?\.antt):\d+:\d+: note: a trial run of this declaration was admitted.* \(in `([^`]*)`\)", text, re.M))
        self.renamed = {gone for gone, asked in ASKED.findall(text) if is_renamed(gone, re.findall(r"`([^`]+)`", asked))}
        self.errors, self.unproved, at, goals = [], {}, None, []
        for line in text.splitlines():
            m = re.match(r"(?:\./)?((?:proofs|src|specs)/\S+?\.\w+):\d+:\d+: error(?:\[[\w-]+\])?: (?:`([^`]*)`: )?(.*)", line)
            goal = GOAL.match(line)
            function = re.match(rf"fn {crate}::(\S+): (?:no proof: |not proved|could not tell)(.*)", line)
            if m:
                at = [m[1], m[2], m[3]]
                self.errors.append(at)
                continue
            if line.startswith("  ") and at:
                at[2] += "\n" + line
                continue
            at = None
            if goal:
                goals.append(goal[2])
            elif function:
                words = function[2] + "".join(goals)
                if goals and UNCLOSED not in words:
                    words = f"; {UNCLOSED} a goal{words}"
                self.unproved[tuple(function[1].split("::"))] = words
            if line.startswith("fn "):
                # a function's goals stand right before its line
                goals = []

    @staticmethod
    def functions(file):
        """Those whose proof the file is; the functions of a cycle of calls have one, in a folder +even+odd."""
        m = re.match(r"proofs/(\S+)/(?:Proof|Answers|Invariants)\.antt$", file)
        if not m:
            return set()
        *module, names = m[1].split("/")
        return {(*module, name) for name in names.split("+") if name}

    def verdict(self, file, declaration, words):
        gone = GONE.search(words)
        if gone and gone[1] in self.renamed:
            return "open"
        gone = NO_TEST.search(words)
        if gone and is_renamed(gone[1], set(re.findall(r"[`.](if-[\w-]+)", words))):
            return "open"
        return "shape" if (file, declaration) in self.held else verdict(declaration, words)

    def words_of(self, chosen):
        return {self.verdict(*error) for error in chosen}

    def facts(self):
        """The file and the declaration of each error that is a fact."""
        return [(file, declaration) for file, declaration, words in self.errors if self.words_of([(file, declaration, words)]) == {"fact"}]

    def refused_in(self, function, added=False, values=False):
        """Why a wrong body is not refused for a fact in its own function; empty where it is. added: it has a statement more. values: of a goal without an
        answer it has to be said that the facts known there allow values at which it is false."""
        own = [e for e in self.errors if function in self.functions(e[0])]
        found = self.words_of(e for e in own if not (added and PUT_TOGETHER.match(e[1] or "")))
        words = self.unproved.get(function, "")
        if UNCHOSEN.search(words):
            found.add("shape")
        if (VALUES if values else UNCLOSED) in words:
            found.add("fact")
        where = "::".join(function)
        if "shape" in found:
            return f"the proof of {where} no longer fits the code's shape"
        return "" if "fact" in found else f"no fact fails in {where}"

    def refused_law(self, law):
        found = self.words_of(e for e in self.errors if e[1] == law and not self.functions(e[0]))
        if "shape" in found:
            return f"the proof of {law} no longer fits"
        return "" if "fact" in found else f"{law} still holds"

    def refused_anywhere(self):
        """Why a wrong definition is not refused for a fact; empty where it is. What restates the definitions does not count."""
        found = self.words_of(e for e in self.errors if e[0] != RESTATED)
        if any(UNCLOSED in words for words in self.unproved.values()):
            found.add("fact")
        return "" if "fact" in found else "no fact fails"

    def disturbed(self, changed):
        """Errors of their own elsewhere than in the changed functions: (where, what)."""
        found = []
        for file, declaration, words in self.errors:
            if not self.functions(file) & changed and not FOLLOWS.search(words):
                found.append((f"{file} `{declaration}`", words.splitlines()[0][:100]))
        return found + [("::".join(f), words[-100:]) for f, words in self.unproved.items() if f not in changed and UNCLOSED in words]


# (declaration, words of the error, the verdict that it must get)
SAMPLES = [
    ("returns-2", "`omega`: the goal does not follow from what it read. All of that holds, and the goal fails, at `n` = 1", "fact"),
    ("add-count", "`omega`: the part `.fits` of the goal does not follow from what it read. All of that holds", "fact"),
    ("returns", "`search`: no proof of `reads.Post c`\n  was found. Every way was tried", "fact"),
    ("+put-decimal-spec", "as printed, the two types differ only where one has `10` (expected), right after `… <`\n  and the other has `9`", "fact"),
    ("front-spec", "`search`: no proof of `InSlice s at`\n  was found. It stopped 5 lemmas deep", "fact"),
    ("returns", "computed as far as they go, the two types differ only where one has `3` (expected) and the other has `2` (found)", "fact"),
    ("loop-holds", "as printed, the two types first differ where one has `Prim.Native.Nat._≤_`\n  (expected), at the start", "fact"),
    ("not-paid", "computed as far as they go, the two types are `Path Bool b false`\n  (expected) and `Path Bool b true` (found)", "fact"),
    ("returns-3", "expected type `r ≡ pick a b c`\n  but this has type `r ≡ pick a b d`", "fact"),
    ("returns-2", "`get 15 x` \n  ≟ `not (c .is-complete .result)`\n  does not hold (this comparison, made at this position, had to wait", "fact"),
    ("returns", "give a proof of that as the last argument, `simp L t` (`simp L ?` shows it as a hole's goal), or add what is missing to the list\n"
     "  `simp` has no last argument, so what it leaves must be a path whose two ends are equal, and `Path ℕ a b`\n  is none", "fact"),
    ("paid-of", "list the missing equation with its arguments, or rewrite by `rw` or `simp`\n  `cc`: the equations do not join `pending` to `paid`", "fact"),
    ("returns", "`search`: no proof of `b < a` was found. `grind`: the goal does not follow. The hypotheses hold, and the goal fails at `a` = `0`", "fact"),
    ("returns", "`grind`: the goal does not follow. The hypotheses hold, and the goal fails at `a` = `0`. The part of the goal that is meant is", "fact"),
    ("returns", "as printed, the two types differ only where one has `twice c.args.x` (expected)\n  and the other has `c.args.x` (found)", "fact"),
    ("rules", "as printed, the two types agree until one ends (expected), and the other goes on with `+ 1` (found)", "fact"),
    ("by-term", "expected type `a ≡ c`, but this has type `a ≡ b`", "fact"),
    ("returns", "`rw`: no occurrence of the path's left endpoint in the goal: write the family yourself", "open"),
    (None, "1 declaration that depends on `by-term`, which was rejected, was not checked: follows", "open"),
    ("returns-6", "list the missing equation with its arguments, or rewrite by `rw` or `simp`\n  `cc` met a bound of its own before", "open"),
    ("put-u16-spec", "`close` was not admitted (it has holes or undetermined implicits, or was rejected), so this cannot be checked", "open"),
    ("returns-2", "`rw`: no part of the goal `Path ℕ a b`\n  is an instance of `?0 + 1`", "open"),
    ("returns", "`simp`: no equation of the list has an instance in the goal `Post c`.", "open"),
    ("same-length-7", "computed as far as they go, the two types differ only where one has `.order` (expected) and the other has `.table` (found)", "open"),
    ("put-within-spec", "expected type `Need-same-length-8`\n  but this has type `Need-returns`", "shape"),
    ("returns", "`c .before` has no field `if1`", "shape"),
    ("returns", "this λ has 2 binders, but its type has room for only 1: at `κs` the type is `k-op2 T21`\n  which is not a function", "shape"),
    ("cast-t28", "`tie.Need-cast-t28`: module `log.Tie` has no `Need-cast-t28` that can be named from here", "shape"),
    ("returns", "`order2` is not in scope", "shape"),
    ("double-requires-2", "`goal.double-requires-2`: module `Rattle.low.proofs.quad.Goals` has no `double-requires-2` that can be named from here", "shape"),
    ("invariant-loop-k", "`.new` projects from a record, but this has type `mathlib.Core.List.List (borrow.Table.Referent.rt_f)`", "shape"),
    (None, "expected `u8`, found `&str`", "shape"),
    ("returns", "some error that nobody has read yet", "shape"),
]


# A log: `put` fails for a fact; `get` beside it, for a fact, too, but its proof has lost its shape; `law` is about a clause; `low` and `near` have no answers
# to the goals that are left, and of `low` values are known; `turn` has a loop that asks for another measure.
SAMPLE_LOG = """
checked c::low, 1 of 8
./proofs/bytes/put/Answers.antt:9:3: error: `returns`: `omega`: the goal does not follow from what it read. All of that holds
./proofs/bytes/put/Proof.antt:12:1: error: `put-spec`: `close` was not admitted (it has holes), so this cannot be checked
./proofs/bytes/get/Answers.antt:9:3: error: `returns`: `omega`: the goal does not follow from what it read. All of that holds
./proofs/bytes/get/Answers.antt:11:3: error: `returns-2`: record `Start` has no field `before`
./proofs/bytes/top/Proof.antt:12:1: error: `top-spec`: `put-spec` was not admitted (it has holes), so this cannot be checked
./proofs/Clauses.antt:2:3: error: `open`: expected type `a ≡ b`, but this has type `a ≡ twice b`
./proofs/Clauses.antt:2:1: note: a trial run of this declaration was admitted by the kernel. That run had the line `unfolding twice`. (in `open`)
./proofs/Clauses.antt:5:3: error: `law`: computed as far as they go, the two types are `a ≡ b`
  (expected) and `a ≡ a` (found)
./proofs/Clauses.antt:7:3: error: 1 declaration that depends on `law`, which was rejected, was not checked: more
./proofs/bytes/add/Proof.antt:9:3: error: `returns`: `omega`: the goal does not follow from what it read. All of that holds
./proofs/bytes/add/Proof.antt:12:1: error: `add-spec`: this λ has 2 binders, but its type has room for only 1: at `κs` the type is `InSlice s`
fn c::bytes::put: not proved
note: src/lib.rt:36:9: it is not proved that the index is in range (`bounds-out-k`); the facts known there allow values at which this goal is false
help: if a bound is missing, state it in a `requires`, a ghost field, a loop's invariant or a callee's `ensures`.
fn c::low: no proof: expected answers in ./proofs/low/Answers.antt; `search` did not prove `bounds-out-k`
note: src/lib.rt:28:5: it is not proved that what `double` requires holds at this call (`double-requires-2`); `search` gave up at one of its limits
fn c::near: no proof: expected answers in ./proofs/near/Answers.antt; `search` did not prove `double-requires-2`; it calls `c::low`, which is not proved
fn c::turn: no proof: expected a measure in ./proofs/turn/Invariants.antt
fn c::next: no proof: expected `next-spec` in ./proofs/next/Proof.antt; it calls `c::low`, which is not proved
fn c::last: not proved; it calls `c::low`, which is not proved
./proofs/count/Answers.antt:21:28: error: `returns-lt16`: `goal.returns-lt16`: module `Rattle.c.proofs.count.Goals` has no `returns-lt16` that can be named from here
note: src/lib.rt:38:1: it is not proved that what the function ensures holds when it returns (`returns-lt15`); `search` gave up at one of its limits
fn c::count: not proved
help: `Goals` has no `returns-lt16`; rattle asks for `returns-lt15`, `bounds`; a `use` line of it can name these places: `Then-lt15`, `Start`
./proofs/other/Answers.antt:21:28: error: `returns-le3`: `goal.returns-le3`: module `Rattle.c.proofs.other.Goals` has no `returns-le3` that can be named from here
note: src/lib.rt:38:1: it is not proved that what the function ensures holds when it returns (`returns-ge3`); `search` gave up at one of its limits
fn c::other: not proved
help: `Goals` has no `returns-le3`; rattle asks for `returns-ge3`; a `use` line of it can name these places: `Start`
./proofs/above/Answers.antt:21:28: error: `returns`: record `Rattle.c.proofs.above.Lts.Else2` has no field `if-d-gt4` (nearest: .if-d-gt5, .if-c-lt1)
  the fields that can be named here are `before`, `if-d-gt5`, `if-c-lt1`
./proofs/above/Answers.antt:9:28: error: `shape_of-s-then-d-gt4`: `goal.a`: module `R.c.proofs.above.Goals` has no `shape_of-s-then-d-gt4` that can be named
note: src/lib.rt:38:1: it is not proved that what the function ensures holds when it returns (`returns-then-d-gt5`); `search` gave up at one of its limits
fn c::above: not proved
help: `Goals` has no `shape_of-s-then-d-gt4`; rattle asks for `returns-then-d-gt5`; a `use` line of it can name these places: `Start`
./proofs/both/Answers.antt:21:28: error: `returns`: record `Rattle.c.proofs.both.Lts.Else2` (nearest: .if-is_fine, .is_fine)
  has no field `if-not-is_fine`
note: src/lib.rt:38:1: it is not proved that what the function ensures holds when it returns (`returns-then-is_fine`)
fn c::both: not proved
./proofs/turned/Answers.antt:21:28: error: `returns`: record `Rattle.c.proofs.turned.Lts.Else2` has no field `if-x-z` (nearest: .if-z-x)
note: src/lib.rt:38:1: it is not proved that what the function ensures holds when it returns (`returns-then-z-x`)
fn c::turned: not proved
note: `bounds-out-k` of proofs/low/Answers.antt may be false: the known facts allow `c.loop-k.k` = `0`
"""
# Where the text cannot be read or compiled there is nothing else.
SAMPLE_BAD = """
src/lib.rt:56:35: error[mismatched-types]: expected `u8`, found `&str`
"""


def selftest():
    wrong = [f"{d}: {w.splitlines()[0]}: {verdict(d, w)}, and it is to be {due}" for d, w, due in SAMPLES if verdict(d, w) != due]
    log = Log("c", SAMPLE_LOG)
    bad = Log("c", SAMPLE_BAD)
    put, get, add, low, near, count, other = ("bytes", "put"), ("bytes", "get"), ("bytes", "add"), ("low",), ("near",), ("count",), ("other",)
    above, both, turned = ("above",), ("both",), ("turned",)
    asked = [
        (log.refused_in(put), ""),
        (log.refused_in(get), "the proof of bytes::get no longer fits the code's shape"),
        (log.refused_in(("bytes", "top")), "no fact fails in bytes::top"),
        (log.refused_in(add), "the proof of bytes::add no longer fits the code's shape"),
        (log.refused_in(add, added=True), ""),
        (log.refused_in(get, added=True), "the proof of bytes::get no longer fits the code's shape"),
        (log.refused_in(low), ""),
        (log.refused_in(low, values=True), ""),
        (log.refused_in(near), ""),
        (log.refused_in(near, values=True), "no fact fails in near"),
        (log.refused_in(("turn",)), "the proof of turn no longer fits the code's shape"),
        (log.refused_in(("last",)), "no fact fails in last"),
        (log.refused_in(count), ""),
        (log.refused_in(other), "the proof of other no longer fits the code's shape"),
        (log.refused_in(above), ""),
        (log.refused_in(both), ""),
        (log.refused_in(turned), "the proof of turned no longer fits the code's shape"),
        (bad.refused_in(low), "no fact fails in low"),
        (bad.refused_anywhere(), "no fact fails"),
        ([where for where, _ in bad.disturbed({low})], ["src/lib.rt `None`"]),
        (log.refused_in(("next",)), "no fact fails in next"),
        (log.refused_law("law"), ""),
        (log.refused_law("lemma"), "lemma still holds"),
        (log.refused_law("more"), "more still holds"),
        (log.refused_law("open"), "the proof of open no longer fits"),
        (log.refused_anywhere(), ""),
        (Log("c", "\n".join(line for line in SAMPLE_LOG.splitlines() if "Clauses" in line)).refused_anywhere(), "no fact fails"),
        ([where for where, _ in log.disturbed({put, get, add, count, other, above, both, turned})],
         ["proofs/Clauses.antt `open`", "proofs/Clauses.antt `law`", "low", "near"]),
        ([where for where, _ in log.disturbed({get, add, low, near, count, other, above, both, turned})],
         ["proofs/bytes/put/Answers.antt `returns`", "proofs/Clauses.antt `open`", "proofs/Clauses.antt `law`"]),
    ]
    wrong += [f"{got!r}, and it is to be {due!r}" for got, due in asked if got != due]
    for line in wrong:
        print(line)
    print(f"{len(SAMPLES)} sample errors, {len(asked)} questions to a sample log, {len(wrong)} wrong")
    return 1 if wrong else 0
