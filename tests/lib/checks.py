"""What the scripts of checks have in common: running the program on an input, and one check after the other."""

import functools
import os
import tempfile
from argparse import ArgumentParser, Namespace
from dataclasses import replace
from itertools import product, zip_longest
from pathlib import Path
from typing import Any, Callable, Iterable, Iterator, TypeVar

from lib.model import Options, Outcome, expected
from lib.program import BUILT, EXAMPLES, Given, Tally, build_shim, executable, parser_of, run

VASE = b"0,item,0,0,Vase,10,100,1\n"
VIEW = b"0,viewuser,0\n"
SEEN = b"user rating=0 comments=0\n"
MILLION = 1_000_000
FEW = Options(joined=3, split=4, threshold=1, users=5, categories=2)


class Tester:
    """What the checks of a script are given: a folder for files, and the count of what passed and failed."""

    def __init__(self, folder: Path, tally: Tally) -> None:
        self.folder = folder
        self.tally = tally

    def close(self) -> None:
        """Ends what may be left running after the last check."""


class AuctionTester(Tester):
    """Runs the auction's program, that of the words of a script."""

    def __init__(self, asked: Namespace, folder: Path, tally: Tally) -> None:
        super().__init__(folder, tally)
        self.program = asked.program
        self.input = folder / "input"
        self.output = folder / "output"
        self.shim = build_shim("refused_calls", folder)
        self.example = (EXAMPLES / "first_example.csv").read_bytes()
        self.replies = (EXAMPLES / "first_example.replies").read_bytes()

    def run(self, data: Given = b"", options: Options = Options(), **how: Any) -> Outcome:
        return run([self.program, *options.words()], data, **how)

    def run_cut(
        self, limit: str, number: int, data: bytes = b"", options: Options = Options(), **limits: int
    ) -> Outcome:
        """A run in which the shim sets a limit, or more."""
        return self.run(data, options, env=self.limited({limit: number} | limits))

    def limited(self, limits: dict[str, int]) -> dict[str, str]:
        """The environment of a run in which the shim sets limits."""
        return os.environ | {"LD_PRELOAD": str(self.shim)} | {limit: str(number) for limit, number in limits.items()}

    def same(self, what: str, got: Outcome, wanted: Outcome) -> None:
        self.tally.same(what, got, wanted)

    def as_model(self, what: str, data: bytes, options: Options = FEW) -> None:
        """One worker's outcome is the model's."""
        self.same(what, self.run(data, options), expected(data, options))

    def run_large(self, parts: Iterable[bytes], options: Options = Options()) -> Outcome:
        """A run whose input and output are files. Of the output, the outcome has the first bytes."""
        with self.input.open("wb") as file:
            file.writelines(parts)
        return self.run_input(options)

    def run_input(self, options: Options) -> Outcome:
        """A run on the large input once more."""
        with self.input.open("rb") as file, self.output.open("wb") as printed:
            got = self.run(file, options, stdout=printed)
        with self.output.open("rb") as printed:
            return replace(got, stdout=printed.read(100))

    def answers(self, what: str, got: Outcome, lines: Iterable[bytes]) -> None:
        """A large run was answered with these lines."""
        self.same(what, replace(got, stdout=b""), Outcome(0, b"", b""))
        with self.output.open("rb") as printed:
            right = all(line == wanted for line, wanted in zip_longest(printed, lines))
        self.tally.check(right, f"{what}: the output")


T = TypeVar("T", bound=Tester)
Check = Callable[[AuctionTester], None]


def each_output() -> Iterator[Options]:
    for history, rows, report in product((False, True), repeat=3):
        yield Options(categories=2, history=history, rows=rows, report=report)


def with_shim(check: Check) -> Check:
    """A check that is made where the shim could be built."""

    @functools.wraps(check)
    def checked(tester: AuctionTester) -> None:
        if tester.shim is None:
            tester.tally.skip(check.__doc__, "there is no C compiler")
        else:
            check(tester)

    return checked


def main(description: str, checks: tuple[Check, ...]) -> None:
    """What a script does whose checks need no more than the auction's program."""
    words = parser_of(description)
    words.add_argument("program", nargs="?", type=executable, default=str(BUILT))
    make_all(words, checks, AuctionTester)


def make_all(
    words: ArgumentParser, checks: tuple[Callable[[T], None], ...], tester_of: Callable[[Namespace, Path, Tally], T]
) -> None:
    """Makes the checks of a script, or the one that is asked for: with a tester of its words,
    of a folder and of a tally."""
    words.add_argument("--only", choices=[check.__name__ for check in checks], help="only this check")
    asked = words.parse_args()
    tally = Tally()
    with tempfile.TemporaryDirectory() as folder:
        tester = tester_of(asked, Path(folder), tally)
        try:
            for check in checks:
                if asked.only in (None, check.__name__):
                    tally.tell(check, tester)
        finally:
            tester.close()
    tally.finish()
