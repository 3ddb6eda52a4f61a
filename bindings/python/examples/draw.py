"""Draws a run as SVG: PYTHONPATH=bindings/python python3 bindings/python/examples/draw.py RUN OUT.svg

A lane for each instance, a column for each rank of an accepted block, in rank order and not to scale. Filled blocks are in the global log, and the number in
them is their position there; the bar parts them from the others. It steps where blocks of one rank stand on both sides of it.
"""

import math
import sys
from pathlib import Path
from xml.sax.saxutils import escape, quoteattr

import rugxeni

LEFT, RIGHT, TOP, LANE, LINE = 92, 64, 96, 40, 22
PLOT, WIDEST_COLUMN, LEAST_COLUMN = 760, 60, 4  # the plot is wider where its columns would get too narrow
LEAST_RADIUS, RADIUS, LEAST_NUMBERED = 2.5, 10.0, 9  # of a block; from the last on its position can be read in it
RANK_WIDTH, DIGIT = 13, 7  # what a rank takes up below its column, and each of its digits
INK, PALE, PAPER, BLUE, TINT, RED = "#333333", "#b5b5b5", "#ffffff", "#1f4e79", "#e8f0f8", "#c0392b"


def bar(reading):
    """The bar as (rank, instance): the least of the instances' last blocks, one rank higher. An instance without a block counts as having last rank 0."""
    rank, instance = min((blocks[-1].rank if blocks else 0, i) for i, blocks in enumerate(reading.blocks))
    return rank + 1, instance


class Plan:
    """Where things stand."""

    def __init__(self, reading):
        self.lanes = reading.sizes.instances
        self.ranks = sorted({block.rank for blocks in reading.blocks for block in blocks})
        self.column = min(WIDEST_COLUMN, max(LEAST_COLUMN, PLOT / max(1, len(self.ranks))))
        self.columns = {rank: LEFT + self.column * (k + 0.5) for k, rank in enumerate(self.ranks)}
        self.radius = min(RADIUS, max(LEAST_RADIUS, 0.4 * self.column))
        self.numbered = self.radius >= LEAST_NUMBERED
        self.right = LEFT + max(PLOT, math.ceil(self.column * len(self.ranks)))
        self.bottom = TOP + LANE * self.lanes
        self.below = self.bottom + DIGIT * len(str(max(self.ranks, default=0))) + LINE  # the ranks end above it

    def lane(self, instance):
        return TOP + LANE * (instance + 0.5)

    def edge(self, limit, instance):
        """Where the bar stands in a lane: right of all ranks that are below it there."""
        return LEFT + self.column * sum((rank, instance) < limit for rank in self.ranks)


def tag(name, *inside, **attributes):
    """An element. A `_` in an attribute's name stands for `-`; lengths are rounded to tenths."""
    named = {key.replace("_", "-"): f"{value:.1f}" if isinstance(value, float) else str(value) for key, value in attributes.items()}
    return f"<{name}{''.join(f' {key}={quoteattr(value)}' for key, value in named.items())}>{''.join(inside)}</{name}>\n"


def label(x, y, words, **attributes):
    return tag("text", escape(words), x=x, y=y, dy="0.35em", **attributes)


def draw_lanes(plan):
    for instance in range(plan.lanes):
        y = plan.lane(instance)
        yield tag("line", x1=LEFT, y1=y, x2=plan.right, y2=y, stroke=PALE)
        yield label(LEFT - 12, y, f"instance {instance}", text_anchor="end")


def draw_axis(plan):
    """The ranks below their columns, as many as can stand beside each other."""
    step = math.ceil(RANK_WIDTH / plan.column)
    for rank in plan.ranks[::step]:
        x = plan.columns[rank]
        yield tag("line", x1=x, y1=plan.bottom, x2=x, y2=plan.bottom + 5, stroke=INK)
        yield label(0, 0, str(rank), text_anchor="end", font_size=11, transform=f"translate({x:.1f} {plan.bottom + 9}) rotate(-90)")
    yield tag("line", x1=LEFT, y1=plan.bottom, x2=plan.right, y2=plan.bottom, stroke=INK)
    yield label((LEFT + plan.right) / 2, plan.below, "rank (in order, not to scale)", text_anchor="middle")


def draw_bar(plan, limit):
    """The bar from the first lane to the last, and a tint over what is below it."""
    steps = [(plan.edge(limit, i), TOP + LANE * end) for i in range(plan.lanes) for end in (i, i + 1)]
    line = " ".join(f"{x:.1f},{y}" for x, y in steps)
    yield tag("polygon", points=f"{LEFT},{TOP} {line} {LEFT},{plan.bottom}", fill=TINT)
    yield tag("polyline", points=line, fill="none", stroke=RED, stroke_width=2, stroke_dasharray="6 3")
    yield label(steps[0][0], TOP - 12, f"bar {limit}", text_anchor="middle", fill=RED)


def draw_block(plan, block, position, sets_bar):
    x, y = plan.columns[block.rank], plan.lane(block.instance)
    cited = f"cites {' '.join(map(str, block.citations))}" if block.citations else "cites nothing"
    logged = f"position {position} of the log" if position else "not in the log"
    told = tag("title", f"instance {block.instance}, number {block.sequence}, rank {block.rank}; {logged}; {cited}")
    stroke, width = (RED, 0.3) if sets_bar else (BLUE, 0.15)
    look = dict(fill=BLUE if position else PAPER, stroke=stroke, stroke_width=max(1.0, width * plan.radius))
    yield tag("circle", told, cx=x, cy=y, r=plan.radius, **look)
    if position and plan.numbered:
        yield label(x, y, str(position), text_anchor="middle", font_size=10 if position < 100 else 9, fill=PAPER)


def draw_blocks(plan, reading, limit):
    position = {place: k for k, place in enumerate(reading.log, start=1)}
    for block in (block for blocks in reading.blocks for block in blocks):
        sets_bar = limit == (block.rank + 1, block.instance)
        yield from draw_block(plan, block, position.get((block.instance, block.sequence)), sets_bar)


def legend(plan, reading, limit):
    """Rows of fill, stroke and words. Where the bar's instance has no block, none is the least of the last blocks."""
    numbers = ", with its position there" if plan.numbered else ""
    least = (BLUE, RED, f"the least of the last blocks: the bar {limit} stands one rank above it, and the log is what is below the bar")
    empty = (PAPER, PAPER, f"instance {limit[1]} has no block and counts as having last rank 0: the bar is {limit}, and the log is what is below it")
    return [
        (BLUE, BLUE, f"in the global log{numbers}"),
        (PAPER, BLUE, "accepted, not in the log"),
        least if reading.blocks[limit[1]] else empty,
    ]


def draw_legend(plan, rows):
    for k, (fill, stroke, words) in enumerate(rows):
        y = plan.below + LINE * (k + 1.5)
        yield tag("circle", cx=LEFT + 7, cy=y, r=6, fill=fill, stroke=stroke, stroke_width=2)
        yield label(LEFT + 22, y, words)


def summary(reading):
    accepted = sum(map(len, reading.blocks))
    settled = sum(settlement != "open" for settlement in reading.settlements)
    return (
        f"{len(reading.answers)} blocks: {len(reading.log)} in the global log, {accepted - len(reading.log)} accepted and not in it, "
        f"{len(reading.answers) - accepted} refused. {settled} of {reading.sizes.transactions} transactions are settled."
    )


def picture(reading, name):
    """The SVG text."""
    plan, limit = Plan(reading), bar(reading)
    width, height = plan.right + RIGHT, plan.below + 5 * LINE
    parts = [
        tag("title", escape(f"The run {name}")),
        tag("rect", width=width, height=height, fill=PAPER),
        label(LEFT, 26, name, font_size=16, font_weight="bold"),
        label(LEFT, 50, summary(reading)),
        *draw_bar(plan, limit),
        *draw_lanes(plan),
        *draw_axis(plan),
        *draw_blocks(plan, reading, limit),
        *draw_legend(plan, legend(plan, reading, limit)),
    ]
    return tag(
        "svg",
        "\n",
        *parts,
        xmlns="http://www.w3.org/2000/svg",
        width=width,
        height=height,
        viewBox=f"0 0 {width} {height}",
        font_family="sans-serif",
        font_size=12,
        fill=INK,
    )


def main(run, out):
    try:
        reading = rugxeni.read(Path(run).read_bytes())
    except rugxeni.Refused as refused:
        sys.exit(f"{run}: {refused}")
    Path(out).write_text(picture(reading, Path(run).name), encoding="utf-8")


if __name__ == "__main__":
    if len(sys.argv) != 3:
        sys.exit("usage: draw.py RUN OUT.svg")
    main(*sys.argv[1:])
