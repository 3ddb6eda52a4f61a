"""Tests of the programs in examples/ and of link.sh; test.py runs them with its own."""

import csv
import os
import subprocess
import sys
import tempfile
import unittest
from pathlib import Path
from xml.etree import ElementTree

import rugxeni

HERE = Path(__file__).resolve().parent
ROOT = HERE.parent.parent
sys.path.append(str(HERE / "examples"))
import draw  # noqa: E402
import tables  # noqa: E402

READABLE = ["worked", "unseen", "group", "full"]
SVG = "{http://www.w3.org/2000/svg}"


def run_of(name):
    return ROOT / "examples" / f"{name}.run"


def reading_of(name):
    return rugxeni.read(run_of(name).read_bytes())


def stepped():
    """Two blocks of one rank, one on each side of the bar."""
    ranks = enumerate([2, 1, 2])
    return rugxeni.read(rugxeni.write(rugxeni.Sizes(3, 1, 0, 0), [0], [], [rugxeni.Block(i, 1, rank, []) for i, rank in ranks]))


def program(name, *arguments, **environment):
    """A program of examples/: its status, what it printed, what it said of errors."""
    settings = {**os.environ, "PYTHONPATH": str(HERE), **environment}
    done = subprocess.run([sys.executable, HERE / "examples" / name, *arguments], env=settings, capture_output=True, text=True, check=False)
    return done.returncode, done.stdout, done.stderr


class Pictures(unittest.TestCase):
    def drawn(self, reading):
        """The picture, and its circles by what their titles say; those of the legend have none."""
        root = ElementTree.fromstring(draw.picture(reading, 'a<b>&"c".run'))
        circles = [circle for circle in root.iter(f"{SVG}circle") if circle.find(f"{SVG}title") is not None]
        return root, {circle.find(f"{SVG}title").text.split(";")[0]: circle for circle in circles}

    def test_blocks(self):
        for reading in [stepped(), *map(reading_of, READABLE)]:
            root, circles = self.drawn(reading)
            blocks = [block for instance in reading.blocks for block in instance]
            drawn = [circles.pop(f"instance {block.instance}, number {block.sequence}, rank {block.rank}") for block in blocks]
            logged = [(block.instance, block.sequence) in reading.log for block in blocks]
            self.assertEqual(circles, {})
            self.assertEqual([circle.get("fill") == draw.BLUE for circle in drawn], logged)
            self.assertEqual([self.below(root, block.instance, float(circle.get("cx"))) for block, circle in zip(blocks, drawn)], logged)

    def below(self, root, instance, x):
        """Whether a place of a lane is left of the drawn bar."""
        points = root.find(f"{SVG}polyline").get("points").split()
        return x < float(points[2 * instance].split(",")[0])

    def test_bar(self):
        for reading in [stepped(), *map(reading_of, READABLE)]:
            keys = sorted((block.rank, block.instance, block.sequence) for instance in reading.blocks for block in instance)
            below = [(instance, sequence) for rank, instance, sequence in keys if (rank, instance) < draw.bar(reading)]
            self.assertEqual(below, reading.log)

    def test_empty_instances(self):
        """An instance without a block counts as having last rank 0."""
        first, top, other = (rugxeni.Block(i, 1, rank, [0, 0]) for i, rank in [(0, 1), (0, 2**32 - 1), (1, 1)])
        for given, bar, log in [([first], (1, 1), [(0, 1)]), ([top], (1, 1), []), ([other], (1, 0), []), ([], (1, 0), [])]:
            reading = rugxeni.read(rugxeni.write(rugxeni.Sizes(2, 1, 0, 0), [0], [], given))
            root, circles = self.drawn(reading)
            self.assertEqual((draw.bar(reading), reading.log, len(circles)), (bar, log, len(given)))
            self.assertEqual([circle.get("fill") == draw.BLUE for circle in circles.values()], [bool(log)] * len(given))
            self.assertIn(f"instance {bar[1]} has no block", ElementTree.tostring(root, encoding="unicode"))

    def test_shown(self):
        shown = (ROOT / "docs/pictures/group.svg").read_text()
        self.assertEqual(draw.picture(reading_of("group"), "group.run"), shown)


class Tables(unittest.TestCase):
    def rows(self, name):
        with tempfile.TemporaryDirectory() as folder:
            tables.main(run_of(name), folder)
            return {path.stem: list(csv.DictReader(path.read_text().splitlines())) for path in Path(folder).iterdir()}

    def test_rows(self):
        for name in READABLE:
            reading, rows = reading_of(name), self.rows(name)
            self.assertEqual([(int(row["instance"]), int(row["sequence"])) for row in rows["log"]], reading.log)
            self.assertEqual([row["settlement"] for row in rows["transactions"]], reading.settlements)
            self.assertEqual([rugxeni.Account(int(row["free"]), int(row["held"])) for row in rows["accounts"]], reading.accounts)
            self.assertEqual([int(row["value"]) for row in rows["registers"]], reading.registers)
            self.assertEqual([self.block(row) for row in rows["blocks"]], [block for instance in reading.blocks for block in instance])

    def test_positions(self):
        for rows in map(self.rows, READABLE):
            columns = ("position", "instance", "sequence", "rank")
            logged = sorted(([int(row[column]) for column in columns] for row in rows["blocks"] if row["position"]))
            self.assertEqual(logged, [[int(row[column]) for column in columns] for row in rows["log"]])

    def block(self, row):
        whole = [int(row[field]) for field in ("instance", "sequence", "rank")]
        return rugxeni.Block(*whole, *([int(number) for number in row[field].split()] for field in ("cut", "citations")))


class Programs(unittest.TestCase):
    def setUp(self):
        kept = tempfile.TemporaryDirectory()
        self.addCleanup(kept.cleanup)
        self.folder = Path(kept.name)

    def test_read(self):
        status, said, _ = program("read.py", run_of("group"))
        self.assertEqual((status, said.splitlines()[0]), (0, "33 blocks, 5 turned away, 18 in the global log"))
        self.assertEqual(said.splitlines()[4], "instance 3: 7 blocks, last rank 3454")

    def test_write(self):
        self.assertEqual(program("write.py", self.folder / "out.run"), (0, "", ""))
        self.assertEqual((self.folder / "out.run").read_bytes(), run_of("worked").read_bytes())

    def test_draw_and_tables(self):
        self.assertEqual(program("draw.py", run_of("group"), self.folder / "out.svg"), (0, "", ""))
        self.assertEqual((self.folder / "out.svg").read_text(), (ROOT / "docs/pictures/group.svg").read_text())
        self.assertEqual(program("tables.py", run_of("group"), self.folder / "new" / "tables"), (0, "", ""))
        self.assertEqual(len(list((self.folder / "new" / "tables").glob("*.csv"))), 5)

    def test_damaged(self):
        for name, *arguments in (["read.py"], ["draw.py", self.folder / "out"], ["tables.py", self.folder / "out"]):
            status, said, complaint = program(name, run_of("cut-short"), *arguments)
            self.assertEqual((status, said), (1, ""), name)
            self.assertRegex(complaint, "^[^\n]*refused 1 122[^\n]*\n$", name)
        self.assertEqual(list(self.folder.iterdir()), [])

    def test_nothing_to_load(self):
        status, _, complaint = program("read.py", run_of("worked"), RUGXENI_SO=str(self.folder / "none.so"))
        self.assertEqual(status, 1)
        self.assertRegex(complaint.splitlines()[-1], "^FileNotFoundError: no .*none.so: run `bash bindings/python/link.sh`")

    def test_nothing_to_link(self):
        settings = {**os.environ, "RUGXENI_LIB": str(self.folder)}
        done = subprocess.run(["bash", HERE / "link.sh", self.folder / "out"], env=settings, capture_output=True, text=True, check=False)
        self.assertEqual((done.returncode, done.stdout, list(self.folder.iterdir())), (1, "", []))
        self.assertRegex(done.stderr, "^link.sh: no .*librugxeni.a: run `bash tests/staticlib.sh rugxeni`")
