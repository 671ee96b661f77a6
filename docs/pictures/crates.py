#!/usr/bin/env python3
"""Draws docs/pictures/crates.svg from crates.txt: the crates by kind, without examples and tests, each kind above those
that come before it in the file.

    docs/pictures/crates.py           writes the picture beside this script
    docs/pictures/crates.py --print   writes it to standard output"""
import re
import sys
from pathlib import Path
from typing import Iterator

sys.path.append(str(Path(__file__).resolve().parents[2] / "examples"))
from svg import BLUE, GREY, RED, SAND, WHITE, box, picture, text

CRATES = Path(__file__).resolve().parents[2] / "crates.txt"
LEFT_OUT = "examples and tests"
MODEL = "auction_rows"
KNOWS, KNOWS_NOT = RED, BLUE
WIDTH, LEFT, GAP, BOX, ROW, HEAD, PADDING = 600, 12, 8, 26, 36, 30, 8
TOP, LEGEND = 52, 34

# What each crate uses; the crates of each kind; a kind's rows of boxes, each with its place across.
Uses = dict[str, list[str]]
Kinds = dict[str, list[str]]
Rows = list[dict[str, float]]


def crates() -> tuple[Uses, Kinds]:
    uses, kinds, kind = {}, {}, ""
    for line in CRATES.read_text().splitlines():
        if line.startswith("# "):
            kind = line[2:]
        elif kind != LEFT_OUT and (found := re.fullmatch(r"(\w+): ?(.*)", line)):
            uses[found[1]] = found[2].split()
            kinds.setdefault(kind, []).append(found[1])
    return {name: [used for used in all_used if used in uses] for name, all_used in uses.items()}, kinds


def knows_auctions(uses: Uses, name: str) -> bool:
    return name == MODEL or any(knows_auctions(uses, used) for used in uses[name])


def kinds_used(uses: Uses, kinds: Kinds, kind: str) -> list[str]:
    """The other kinds of which its crates use some."""
    used = {one for name in kinds[kind] for one in uses[name]}
    return [other for other, names in kinds.items() if other != kind and used & set(names)]


def width(name: str) -> float:
    return 14 + 7.7 * len(name)


def rows(names: list[str]) -> Rows:
    """The last crates of a kind, which use the others, come first."""
    found, x = [{}], LEFT
    for name in reversed(names):
        if x + width(name) > WIDTH - LEFT:
            found.append({})
            x = LEFT
        found[-1][name] = x
        x += width(name) + GAP
    return found


def band(uses: Uses, kinds: Kinds, kind: str, y: float, ground: str) -> tuple[list[str], float]:
    """What is drawn of a kind, and where it ends."""
    lines, own = rows(kinds[kind]), kinds_used(uses, kinds, kind)
    height = HEAD + len(lines) * ROW + PADDING
    parts = [box(0, y, WIDTH, height, ground), text(LEFT, y + 20, kind, 14.5, "start", weight="bold")]
    if own:
        parts.append(text(WIDTH - LEFT, y + 20, f"uses {', '.join(own)}", anchor="end", fill=GREY))
    for number, line in enumerate(lines):
        parts += [part for name, x in line.items() for part in crate(uses, name, x, y + HEAD + number * ROW)]
    return parts, y + height


def crate(uses: Uses, name: str, x: float, y: float) -> Iterator[str]:
    colour = KNOWS if knows_auctions(uses, name) else KNOWS_NOT
    yield box(x, y, width(name), BOX, WHITE, 4, colour, 1.6)
    yield text(x + width(name) / 2, y + 18, name)


def legend(y: float) -> Iterator[str]:
    for x, colour, words in ((LEFT, KNOWS, "of the auction alone"), (190, KNOWS_NOT, "of any data")):
        yield box(x, y - 12, 22, 15, WHITE, 3, colour, 1.6)
        yield text(x + 30, y, words, anchor="start")


def drawn() -> str:
    uses, kinds = crates()
    title, y, parts = "The crates of Fundreivo by kind", TOP, []
    for number, kind in enumerate(reversed(kinds)):
        own, y = band(uses, kinds, kind, y, (SAND, WHITE)[number % 2])
        parts += own
    heading = text(WIDTH / 2, 33, title, 16, weight="bold")
    about = "; ".join(f"{kind}: {', '.join(kinds[kind])}" for kind in reversed(kinds))
    return picture(WIDTH, y + LEGEND, title, f"From the top: {about}.", [heading, *parts, *legend(y + 22)])


if __name__ == "__main__":
    if sys.argv[1:] == ["--print"]:
        sys.stdout.write(drawn())
    else:
        Path(__file__).with_suffix(".svg").write_text(drawn())
