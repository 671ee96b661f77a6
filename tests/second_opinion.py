#!/usr/bin/env python3
"""Compares the built program with the model of model.py on random inputs and options, for a given time.

    tests/second_opinion.py [PROGRAM] [--seconds 120] [--seed N]

With one worker the output, the standard error and the status have to be the model's, byte for byte. So has every fault,
with any number of workers. Of several workers, whose threads choose the history, what is printed has to be lawful as
histories.py checks it; rows are also read again. The same seed makes the same inputs again. Each failing input is
written to a file in tests/out, and the command line that shows it again is printed.

Before all that, the checkers of histories, replies and rows have to take those of the example in the documents, and to
refuse them with a line dropped, doubled or moved, and with any digit changed.
"""

import random
import re
import sys
import time
from collections import Counter
from dataclasses import replace
from itertools import count
from pathlib import Path
from typing import Iterable, Iterator

from lib import histories
from lib.inputs import Input, random_input
from lib.model import Options, Outcome, expected, failed, open_auction
from lib.program import BUILT, EXAMPLES, Tally, described, executable, parser_of, run
from lib.records import Fault

TOLD_EVERY = 20


class Comparer:
    def __init__(self, program: Path) -> None:
        self.program = program
        self.kinds: Counter[str] = Counter()

    def compare(self, given: Input) -> str | None:
        """What is wrong with the program's outcome, or None. Raises Undecided where nobody can tell soon enough."""
        got = self.outcome(given.data, given)
        try:
            return self.compare_alone(given, got) if given.options.workers == 1 else self.compare_several(given, got)
        except histories.Difference as difference:
            return str(difference)

    def outcome(self, data: bytes, given: Input) -> Outcome:
        return run([self.program, *given.options.words()], data)

    def compare_alone(self, given: Input, got: Outcome) -> str | None:
        wanted = expected(given.data, given.options)
        self.count(given, fault_of(wanted) or "one worker, " + what_is_printed(given))
        return unlike(got, wanted)

    def compare_several(self, given: Input, got: Outcome) -> str | None:
        try:
            asked, book = open_auction(given.data, given.options)
        except Fault as fault:
            self.count(given, fault_of(failed(fault)))
            return unlike(got, failed(fault))
        if got.status or got.stderr:
            return f"wanted status 0 and no error; got {described(got)}"
        self.count(given, "several workers, " + what_is_printed(given))
        histories.check_printed(got.stdout.decode("ascii", "backslashreplace"), asked, book, given.options)
        return self.compare_again(given, got) if given.options.rows and not given.options.report else None

    def compare_again(self, given: Input, got: Outcome) -> str | None:
        """Rows that were written are read again, and written as they are."""
        return unlike(self.outcome(got.stdout, given), got)

    def count(self, given: Input, kind: str) -> None:
        self.kinds[kind] += 1
        if given.options.report:
            self.kinds["(of all, with a report asked for)"] += 1


def fault_of(outcome: Outcome) -> str:
    """The kind of a fault, or nothing."""
    return re.sub("[0-9]+", "N", outcome.stderr.decode("ascii").strip())


def what_is_printed(given: Input) -> str:
    if given.options.rows:
        return "rows"
    return "history" if given.options.history else "replies"


def unlike(got: Outcome, wanted: Outcome) -> str | None:
    return None if got == wanted else f"wanted {described(wanted)}; got {described(got)}"


EXAMPLE = Options(workers=2, joined=2, split=3, threshold=1, users=10, categories=2)
EXAMPLE_ROWS = """\
0,+item,0,0,"Vase",10,100,1,1
0,+bid,0,0.0,10,1
0,+bid,1,0.0,20,2
1,+bid,2,0.0,25,2
0,+bid,1,0.0,30,3
"""


def try_checkers(tally: Tally) -> None:
    """The checkers take what the example prints, and nothing altered."""
    history = (EXAMPLES / "contended.history").read_text("ascii")
    try_checker(tally, replace(EXAMPLE, history=True), history, altered(history))
    replies = replies_of(history)
    try_checker(tally, EXAMPLE, replies, altered(replies))
    # Rows tell neither what was refused nor, of bids of two workers, which came first. So a row
    # may be missing, or come later.
    rows_altered = (*with_line_doubled(EXAMPLE_ROWS), *with_digit_changed(EXAMPLE_ROWS))
    try_checker(tally, replace(EXAMPLE, rows=True), EXAMPLE_ROWS, rows_altered)
    print(f"{tally.passed} texts of the example, altered and not, taken as they should be", flush=True)


def try_checker(tally: Tally, options: Options, printed: str, altered: Iterable[str]) -> None:
    tally.check(is_lawful(printed, options), f"the checker refuses\n{printed}")
    for text in altered:
        tally.check(not is_lawful(text, options), f"the checker takes\n{text}")


def is_lawful(printed: str, options: Options) -> bool:
    data = (EXAMPLES / "contended.csv").read_bytes()
    try:
        histories.check_printed(printed, *open_auction(data, options), options)
    except histories.Difference:
        return False
    return True


def replies_of(history: str) -> str:
    """The replies of a history whose numbers have one digit each."""
    commits = (line.split(" ", 4) for line in history.splitlines())
    return "".join(sorted(f"{worker},{index},{text}\n" for _, _, worker, index, text in commits))


def altered(text: str) -> Iterator[str]:
    lines = text.splitlines(keepends=True)
    for place in range(len(lines)):
        yield "".join(lines[:place] + lines[place + 1 :])
    for place in range(1, len(lines)):
        yield "".join(lines[: place - 1] + [lines[place], lines[place - 1]] + lines[place + 1 :])
    yield from with_line_doubled(text)
    yield from with_digit_changed(text)


def with_line_doubled(text: str) -> Iterator[str]:
    lines = text.splitlines(keepends=True)
    for place, line in enumerate(lines):
        yield "".join(lines[:place] + [line] + lines[place:])


def with_digit_changed(text: str) -> Iterator[str]:
    for digit in re.finditer("[0-9]", text):
        yield text[: digit.start()] + str((int(digit[0]) + 1) % 10) + text[digit.end() :]


class Session:
    """The comparisons of one seed."""

    def __init__(self, seed: int, program: Path, tally: Tally) -> None:
        self.seed = seed
        self.program = program
        self.tally = tally
        self.comparer = Comparer(program)
        self.undecided = 0
        self.started = time.monotonic()

    def run(self, seconds: float) -> None:
        told = 0.0
        for number in count():
            if self.elapsed() > told + TOLD_EVERY:
                told = self.elapsed()
                print(f"after {told:.0f} s: {number} inputs", flush=True)
            if self.elapsed() > seconds:
                return
            self.compare(number)

    def elapsed(self) -> float:
        return time.monotonic() - self.started

    def compare(self, number: int) -> None:
        given = random_input(random.Random(f"{self.seed}:{number}"))
        try:
            wrong = self.comparer.compare(given)
        except histories.Undecided:
            self.undecided += 1
            return
        again = given.keep(f"second_opinion_{self.seed}_{number}", self.program) if wrong else ""
        self.tally.check(wrong is None, f"input {number} of seed {self.seed}: {wrong}\n  again: {again}")

    def tell_kinds(self) -> None:
        for kind, number in sorted(self.comparer.kinds.items()):
            print(f"{number:8} {kind}")
        print(
            f"{self.undecided:8} of these neither passed nor failed: too many orders could explain the replies",
            flush=True,
        )


def main() -> None:
    words = parser_of(__doc__)
    words.add_argument("program", nargs="?", type=executable, default=str(BUILT))
    words.add_argument("--seconds", type=float, default=120)
    words.add_argument("--seed", type=int, default=random.SystemRandom().randrange(2**32))
    options = words.parse_args()
    print(f"seed {options.seed}", flush=True)
    tally = Tally()
    try_checkers(tally)
    session = Session(options.seed, options.program, tally)
    session.run(options.seconds)
    session.tell_kinds()
    tally.finish()


if __name__ == "__main__":
    sys.setrecursionlimit(10_000)
    main()
