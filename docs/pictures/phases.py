#!/usr/bin/env python3
"""Draws docs/pictures/phases.svg: a joined phase, a split phase, the merge, and the next joined phase.

    docs/pictures/phases.py           writes the picture beside this script
    docs/pictures/phases.py --print   writes it to standard output
"""
import sys
from pathlib import Path
from typing import Iterable, Iterator

sys.path.append(str(Path(__file__).resolve().parents[2] / "examples"))
from svg import BLUE, GREY, INK, RED, ROSE, SAND, WHITE, box, circle, line, picture, text

LEFT, WIDTH, HEIGHT = 14, 560, 546
LANES = (96, 136, 176, 216)
# Where the phases begin, where the last one is cut off, and where the slices are merged.
BEGIN, SPLIT, MERGED, JOINED, END = 78, 206, 350, 414, 548
# How wide the box of a request is, and how far the next one.
BOX, GAP = 21, 4
SHARD, SLICE, OTHER = RED, ROSE, BLUE

TITLE = "Joined and split phases of Fundreivo"
DESCRIPTION = (
    "Time runs to the right, in four lanes, one for each worker. In the first joined phase the workers bid on several "
    "items, often on item A. They take the shard of item A in turn, and wait for it. In the split phase each worker "
    "adds bids to its own slice of item A without waiting; a view of item A is stashed. At the end of the split phase "
    "the slices are merged into item A. The next joined phase begins with the stashed view."
)


def bar(x: float, width: float, lane: float, fill: str) -> str:
    return box(x, lane - 9, width, 18, fill, 3)


def waits(x1: float, x2: float, lane: float) -> str:
    return line(x1, lane, x2, lane, GREY, 1.5, "3 4")


def in_turn(begin: float, rows: Iterable[str]) -> Iterator[str]:
    """What each worker does in a joined phase, by letters: A has the shard of item A, which goes from worker to worker,
    o bids on another item, a dot waits."""
    has = {}
    for lane, row in zip(LANES, rows):
        for at, letter in enumerate(row):
            x = begin + at * (BOX + GAP)
            if letter == ".":
                yield waits(x - GAP, x + BOX + GAP, lane)
            else:
                yield bar(x, BOX, lane, SHARD if letter == "A" else OTHER)
            if letter == "A":
                has[at] = lane
    for at in range(len(has) - 1):
        x = begin + at * (BOX + GAP) + BOX
        yield line(x, has[at], x + GAP, has[at + 1], SHARD, 1.5)


def frame() -> Iterator[str]:
    yield box(SPLIT, 70, MERGED - SPLIT, 182, SAND)
    for number, lane in enumerate(LANES):
        yield text(LEFT, lane + 5, f"worker {number}", 13, "start")
        yield line(BEGIN - 4, lane, END, lane)
    for x in (SPLIT, MERGED, JOINED):
        yield line(x, 14, x, 252)
    phases = (
        (BEGIN, SPLIT, "joined phase", "item A is busy:", "taken in turn"),
        (SPLIT, MERGED, "split phase", "item A is hot:", "each has a slice"),
        (JOINED, END, "joined phase", "what was stashed", "comes first"),
    )
    for begin, end, *words in phases:
        for y, part in zip((26, 46, 63), words):
            yield text((begin + end) / 2, y, part, *((14, "middle", INK, "bold") if y == 26 else (13, "middle", GREY)))


def joined() -> Iterator[str]:
    yield from in_turn(BEGIN, ("Aoo.A", ".Aooo", "o.Aoo", "oo.Ao"))


def split() -> Iterator[str]:
    for number, lane in enumerate(LANES):
        for at in range(5):
            x = SPLIT + 8 + at * (BOX + GAP)
            if (number, at) == (3, 2):
                yield circle(x + BOX / 2, lane, WHITE)
            else:
                yield bar(x, BOX, lane, OTHER if (number, at) == (2, 1) else SLICE)


def merge() -> Iterator[str]:
    middle = (LANES[0] + LANES[-1]) / 2
    for lane in LANES:
        yield line(MERGED - 11, lane, MERGED + 10, middle, SLICE, 3)
    yield box(MERGED + 5, middle - 20, JOINED - MERGED - 10, 40, WHITE, 5, SHARD)
    yield text((MERGED + JOINED) / 2, middle + 5, "merge", 13, fill=SHARD, weight="bold")


def joined_again() -> Iterator[str]:
    stashed, again, under = SPLIT + 8 + 2 * (BOX + GAP) + BOX / 2, JOINED + 14, LANES[3] + 22
    yield line(stashed, LANES[3] + 9, stashed, under, INK, 1.2, "2 3")
    yield line(stashed, under, again, under, INK, 1.2, "2 3")
    yield line(again, under, again, LANES[3] + 9, INK, 1.2, "2 3")
    yield from in_turn(JOINED + 33, ("Aooo", "o.Ao", ".Aoo", "oo.A"))
    yield line(again + 8, LANES[3], JOINED + 33, LANES[0], SHARD, 1.5)
    yield circle(again, LANES[3], INK)


def legend() -> Iterator[str]:
    entries = (
        (lambda x, y: bar(x, 26, y, SHARD), "bid on item A: takes its shard, and puts it back"),
        (lambda x, y: waits(x, x + 26, y), "waits for the shard of item A"),
        (lambda x, y: bar(x, 26, y, SLICE), "bid on hot item A, in the worker's slice: no shard, no waiting"),
        (lambda x, y: bar(x, 26, y, OTHER), "bid on another item, not hot: takes its shard"),
        (lambda x, y: circle(x + 13, y, WHITE), "view of item A: stashed"),
        (lambda x, y: circle(x + 13, y, INK), "the same view, answered after the merge"),
    )
    for at, (mark, words) in enumerate(entries):
        y = 282 + at * 27
        yield mark(LEFT, y)
        yield text(LEFT + 40, y + 5, words, 14, "start")


def notes() -> Iterator[str]:
    yield text(LEFT, 462, "These are long phases, drawn short: each worker has a thread.", 13, "start", weight="bold")
    lines = (
        "If a phase is short, or half of its requests need one shard,",
        "one thread performs it, worker after worker.",
        "A phase ends after so many requests per worker (--joined, --split).",
    )
    for at, words in enumerate(lines):
        yield text(LEFT, 484 + at * 20 + 4 * (at > 1), words, 13, "start", GREY)


if __name__ == "__main__":
    draws = (frame, joined, split, merge, joined_again, legend, notes)
    drawn = picture(WIDTH, HEIGHT, TITLE, DESCRIPTION, [part for draw in draws for part in draw()])
    if sys.argv[1:] == ["--print"]:
        sys.stdout.write(drawn)
    else:
        Path(__file__).with_suffix(".svg").write_text(drawn)
