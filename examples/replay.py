#!/usr/bin/env python3
"""Judges a history as `rubis_check` does, but unproved and without the kit: whether the auction of small_engine.py
gives its replies in its order.

    python3 examples/replay.py INPUT HISTORY

It prints the verdict of docs/CHECKING.md, and ends with its status. It asks for no order within a session."""
import re
import sys
from typing import Iterable

from small_engine import Auction, Scripts, opened, words_of

LINE = re.compile(r"[0-9]+ [0-9]+ ([0-9]+) ([0-9]+) (.*)\n", re.DOTALL)


def verdict(auction: Auction, scripts: Scripts, lines: Iterable[str]) -> tuple[int, str]:
    """A status, and what it means."""
    left = {(worker, index) for worker, script in scripts.items() for index in range(len(script))}
    for number, line in enumerate(lines, start=1):
        if (found := LINE.fullmatch(line)) is None:
            return 8, f"line {number}: not PHASE NUMBER WORKER INDEX TEXT and a line feed"
        worker, index, text = int(found[1]), int(found[2]), found[3]
        place = f"line {number}: {worker},{index}"
        if index >= len(scripts.get(worker, ())):
            return 6, f"{place} stands in no script"
        if (worker, index) not in left:
            return 6, f"{place} stands in an earlier line"
        left.remove((worker, index))
        if (due := auction.answer(worker, *scripts[worker][index])) != text:
            return 5, f"{place} {text} but {due} was due"
    return (6, "{},{} stands in no line".format(*min(left))) if left else (0, "the history replays")


def main() -> int:
    words = words_of(__doc__)
    words.add_argument("history", metavar="HISTORY", help="lines of PHASE NUMBER WORKER INDEX TEXT")
    asked = words.parse_args()
    auction, scripts = opened(asked)
    with open(asked.history, encoding="latin-1", newline="\n") as lines:
        status, said = verdict(auction, scripts, lines)
    print(said)
    return status


if __name__ == "__main__":
    sys.exit(main())
