#!/usr/bin/env python3
"""Compares two builds of the auction program on random inputs: after a change by which
nothing is to be printed otherwise.

    tests/compare_programs.py OLD NEW [--inputs 1000] [--seed N]

Output, standard error and status have to be the same, byte for byte. The inputs are those of second_opinion.py,
with lines that end otherwise, records that lie across the end of what is read at a time, rows after requests, and
reads that give a byte. Phases are so short that no thread is started, so that several workers' replies are the
same in each run. Each input on which the programs differ is written to a file in tests/out, and the command lines
that show it again are printed.
"""

import os
import random
import re
import sys
import tempfile
from collections import Counter
from dataclasses import replace
from pathlib import Path

from lib.inputs import Input, random_input
from lib.model import Options, Outcome
from lib.program import Tally, build_shim, described, executable, parser_of, run

TOLD_EVERY = 100
ROOM = 65536
# One thread performs a phase of at most 128 requests of each worker. These are what waits, no more than a split phase
# had, and what comes: half for each.
MOST_OF_A_PHASE = 128
LINE_ENDS = (b"\r\n", b"\r", b"\n\n", b"\n\r\n", b"\r\r\n")
FILLERS = (
    b"0,viewuser,0",
    b"0,bid,1,0.0,18446744073709551615,12",
    b'0,viewuser,"0"',
    b"0,+item,0,0,Vase,1,18446744073709551615,1,1000000",
    b'0,+item,0,0,"Red, blue",1,18446744073709551615,1',
)


def without_threads(options: Options) -> Options:
    most = MOST_OF_A_PHASE // 2
    return replace(options, joined=min(options.joined, most), split=min(options.split, most))


def with_other_ends(rng: random.Random, data: bytes) -> bytes:
    """Some lines, or all, end otherwise."""
    share = rng.choice((0.05, 0.5, 1))
    end = rng.choice(LINE_ENDS)
    return b"".join(
        line.rstrip(b"\r\n") + end if rng.random() < share else line for line in data.splitlines(keepends=True)
    )


def across_room(rng: random.Random, data: bytes) -> bytes:
    """The data after as many lines as fill what is read at a time, but for some bytes."""
    line = rng.choice(FILLERS) + rng.choice((b"\n", b"\n", b"\r\n"))
    before = ROOM * rng.choice((1, 1, 2)) - rng.randint(0, min(len(data), 200))
    lines = line * (before // len(line) - 1)
    return lines + b"\n" * (before - len(lines)) + data if rng.random() < 0.5 else lines + data


def with_long_line(rng: random.Random, data: bytes) -> bytes:
    place = data.rfind(b"\n", 0, rng.randint(0, len(data))) + 1
    return data[:place] + b"0,item,0,0," + b"y" * rng.choice((ROOM - 20, ROOM, 3 * ROOM)) + b",1,1,1\n" + data[place:]


def with_late_row(rng: random.Random, data: bytes) -> bytes:
    place = data.rfind(b"\n", 0, rng.randint(0, len(data))) + 1
    return (
        data[:place]
        + rng.choice((b"0,+item,0,0,Vase,1,2,3,1\n", b"0,+bid,0,0.0,1,1\r\n", b"0,+comment,0,1,0.0,-5\n"))
        + data[place:]
    )


class Session:
    """The comparisons of one seed."""

    def __init__(self, programs: list[Path], seed: int, shim: Path | None, tally: Tally) -> None:
        self.programs = programs
        self.seed = seed
        self.shim = shim
        self.tally = tally
        self.kinds: Counter[str] = Counter()

    def compare(self, number: int) -> None:
        rng = random.Random(f"{self.seed}:{number}")
        given = self.given(rng)
        cut = rng.choice((1, 2, 7)) if self.shim and len(given.data) < 5000 and rng.random() < 0.2 else None
        old, new = (self.outcome(program, given, cut) for program in self.programs)
        self.kinds["read" if old.status == 0 else re.sub("[0-9]+", "N", old.stderr.decode("ascii").strip())] += 1
        again = "" if old == new else given.keep(f"compare_{self.seed}_{number}", *self.programs)
        self.tally.check(
            old == new, f"input {number} of seed {self.seed}: {described(old)}; {described(new)}\n  again: {again}"
        )

    def given(self, rng: random.Random) -> Input:
        given = random_input(rng)
        data = given.data
        for changed, share in (
            (with_other_ends, 0.2),
            (with_late_row, 0.1),
            (across_room, 0.2),
            (with_long_line, 0.02),
        ):
            if rng.random() < share:
                data = changed(rng, data)
        return Input(data, without_threads(given.options))

    def outcome(self, program: Path, given: Input, cut: int | None) -> Outcome:
        cuts = {} if cut is None else {"LD_PRELOAD": str(self.shim), "READ_AT_MOST": str(cut)}
        return run([program, *given.options.words()], given.data, env=os.environ | cuts)


def main() -> None:
    words = parser_of(__doc__)
    words.add_argument("old", type=executable)
    words.add_argument("new", type=executable)
    words.add_argument("--inputs", type=int, default=1000)
    words.add_argument("--seed", type=int, default=random.SystemRandom().randrange(2**32))
    options = words.parse_args()
    print(f"seed {options.seed}", flush=True)
    tally = Tally()
    with tempfile.TemporaryDirectory() as folder:
        session = Session([options.old, options.new], options.seed, build_shim("refused_calls", Path(folder)), tally)
        for number in range(options.inputs):
            session.compare(number)
            if (number + 1) % TOLD_EVERY == 0:
                print(f"{number + 1} inputs", flush=True)
    for kind, number in session.kinds.most_common():
        print(f"{number:8} {kind}")
    tally.finish()


if __name__ == "__main__":
    sys.setrecursionlimit(10_000)
    main()
