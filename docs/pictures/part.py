#!/usr/bin/env python3
"""Draws docs/pictures/part.svg: how two parts go through the program, read, run, log, reply, and what a crash leaves at
each moment.

    docs/pictures/part.py           writes the picture beside this script
    docs/pictures/part.py --print   writes it to standard output
"""
import sys
from pathlib import Path
from typing import Iterator, Sequence

sys.path.append(str(Path(__file__).resolve().parents[2] / "examples"))
from svg import BLUE, GREY, INK, RED, SAND, TINT, WHITE, box, line, picture, text

WIDTH, HEIGHT = 560, 690
# The middles of the lanes, how wide the boxes of two of them are, and what a crash leaves.
CLIENT, PROGRAM, LOG, BOX, ROW = 48, 206, 336, 84, 100
CRASH, END = 398, 552
# Where each part begins, its steps with their heights, and where the second one ends.
PARTS = ((112, "first part: 3 requests"), (396, "second part: 5 requests sent meanwhile"))
STEPS = (("read", 34, BLUE), ("run", 50, BLUE), ("log", 84, RED), ("reply", 34, BLUE))
GAP, LAST = 5, 634
# How long after its beginning the log is given rows, and how long until they are synced.
APPENDED, SYNCED = 16, 68

TITLE = "How a part is processed"
DESCRIPTION = (
    "Time runs down, in three lanes: client, program and log. The client sends three requests. The program reads them "
    "as a part, runs it, adds its rows to the log and waits for the sync, and then writes the replies. What the client "
    "sent meanwhile is the second part. A crash before the sync of a part ends leaves none, some or all of its rows, "
    "and nobody was answered; a crash after it leaves all of them."
)


def arrow(x1: float, x2: float, y: float, colour: str) -> Iterator[str]:
    way = 1 if x2 > x1 else -1
    yield line(x1, y, x2 - 6 * way, y, colour, 2)
    yield f'<polygon points="{x2 - 9 * way},{y - 5} {x2 - 9 * way},{y + 5} {x2},{y}" fill="{colour}"/>'


def requests(y: float, count: int) -> Iterator[str]:
    """Records on the client's lane, the last of them at a height."""
    for at in range(count):
        yield box(CLIENT - 10, y - 5 - at * 13, 20, 9, INK, 2)


def steps(begin: int) -> list[int]:
    """Where each step of a part begins, and where the last one ends."""
    places = [begin]
    for _, height, _ in STEPS:
        places.append(places[-1] + height + GAP)
    return places


def frame() -> Iterator[str]:
    yield text(WIDTH / 2, 28, TITLE, 16, weight="bold")
    heads = ((CLIENT, "client"), (PROGRAM, "program"), (LOG, "log on disk"), ((CRASH + END) / 2, "a crash leaves"))
    for x, words in heads:
        yield text(x, 60, words, 13, weight="bold")
    for lane in (CLIENT, PROGRAM, LOG):
        for (begin, _), end in zip(PARTS, (PARTS[1][0] - 30, LAST)):
            yield line(lane, begin - (40 if lane == CLIENT else 8), lane, end)
    for begin, words in PARTS:
        yield text(CLIENT + 24, begin - 14, words, 13, "start", GREY, "bold")


def part(begin: int) -> Iterator[str]:
    read, _, log, reply, _ = places = steps(begin)
    for (name, height, fill), y in zip(STEPS, places):
        yield box(PROGRAM - BOX / 2, y, BOX, height, fill, 4)
        yield text(PROGRAM, y + height / 2 + 5, name, 14, fill=WHITE, weight="bold")
    yield from arrow(CLIENT, PROGRAM - BOX / 2, read + 17, INK)
    yield box(LOG - ROW / 2, log + APPENDED - 8, ROW, SYNCED - APPENDED + 16, TINT, 3)
    yield text(LOG, log + 38, "append,", 13)
    yield text(LOG, log + 56, "sync", 13)
    yield from arrow(PROGRAM + BOX / 2, LOG - ROW / 2, log + APPENDED, RED)
    yield from arrow(LOG - ROW / 2, PROGRAM + BOX / 2, log + SYNCED, RED)
    yield from arrow(PROGRAM - BOX / 2, CLIENT, reply + 17, BLUE)
    yield text((CLIENT + PROGRAM - BOX / 2) / 2 + 4, reply + 10, "replies", 13, fill=BLUE)


def clients() -> Iterator[str]:
    (first, _), (second, _) = PARTS
    yield from requests(first + 17, 3)
    waiting = steps(first)[2] + 40
    yield from requests(waiting, 5)
    # They wait in the pipe until the part before is answered.
    yield line(CLIENT, waiting + 6, CLIENT, second + 17, GREY, 1.5, "3 4")


def crashes() -> Iterator[str]:
    for at, (begin, _) in enumerate(PARTS):
        log = steps(begin)[2]
        synced, until = log + SYNCED, LAST if at else PARTS[1][0]
        yield from left(begin, synced, SAND, ("none, some or all", "rows of this part;", "no reply was sent"))
        yield from left(synced, until, TINT, ("all rows of", "this part"))
        yield line(LOG + ROW / 2, synced, END, synced, RED, 1.5, "2 3")


def left(begin: int, end: int, fill: str, words: Sequence[str]) -> Iterator[str]:
    """What a crash leaves between two moments."""
    yield box(CRASH, begin, END - CRASH, end - begin, fill)
    for at, part_of in enumerate(words):
        yield text((CRASH + END) / 2, (begin + end) / 2 + 5 + 19 * (at - (len(words) - 1) / 2), part_of, 13)


def notes() -> Iterator[str]:
    yield text(14, HEIGHT - 34, "At the next start an incomplete last row is moved to FILE.cut;", 13, "start", GREY)
    yield text(14, HEIGHT - 14, "the other rows restore the auction.", 13, "start", GREY)


if __name__ == "__main__":
    parts = [*frame(), *crashes(), *(drawn for begin, _ in PARTS for drawn in part(begin)), *clients(), *notes()]
    if sys.argv[1:] == ["--print"]:
        sys.stdout.write(picture(WIDTH, HEIGHT, TITLE, DESCRIPTION, parts))
    else:
        Path(__file__).with_suffix(".svg").write_text(picture(WIDTH, HEIGHT, TITLE, DESCRIPTION, parts))
