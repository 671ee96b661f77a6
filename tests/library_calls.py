#!/usr/bin/env python3
"""Shows what calls of the library answer where memory is refused: a fault that is named for it, or what
they answer with ample memory.

    tests/library_calls.py [TESTS ..]

The tests `calls` of the crates engine_tests, phase_tests, application_tests and example_ledger make the calls and print
a line `CALL: ANSWER` for each; tests/library_calls.txt has their lines with ample memory. Each of their allocations is
refused in turn, alone and with all that come after it. A begin and a store that were refused are asked once more, and
go on with memory as if they had not been: the first store of a permit has number 1. Any other call that is refused ends
its test, which tells the fault. A refused close leaves the history of the phases before. A refused publish is refused
for good, and the window shows what it showed. Between two looks for memory a view of an unknown user is answered, as
the first request of a permit and as a later one.
"""

import tempfile
from collections import Counter
from dataclasses import dataclass, field
from pathlib import Path

from lib.histories import Difference, require
from lib.model import Outcome
from lib.program import TESTS, Tally, build_shim, built_tests, described, executable, parser_of, run
from lib.refusing import Refusal, Refusing

PREFIX = "calls::tests::"
PASSED, WITHOUT_FAULT = 0, "\ntest result: ok\n"
FAILED, AFTER_THE_FAULT = 101, "\nthe test failed: its result gives status 1\n"

NO_MEMORY = "no memory"
ALLOCATION_FAILED = "memory allocation failed"
NO_THREAD = "thread not started"
# What the standard library answers, told as the error of a test.
REFUSED = ("error: AllocError", "error: AllocFailed { .. }")
# A fault of a library, told so.
FAULT_OF_MEMORY = "error: Memory"
BEGINS = ("joined begin", "split begin")
STORES = ("joined request 2, 7 left", "split request 6, 6 left")
FIRST_STORE = "first store, 2 left"
ASKED_ONCE_MORE = (*BEGINS, *STORES, FIRST_STORE)
CLOSES = ("joined close", "split close")
PARTS = ("first part", "second part")
LOOK, PUBLISH, VIEW, ENTRY = "memory", "publish", "view after ", "entry of phase "
# What each call answers where it is refused memory; in some run it does.
FAULTS = {
    **dict.fromkeys((*ASKED_ONCE_MORE, *CLOSES, *PARTS, "publisher"), (NO_MEMORY,)),
    **dict.fromkeys(("joined receipts", "split receipts", "phases ready", "parts ready", "rows"), REFUSED),
    **dict.fromkeys(("first_store ready", "first store permit", "first_view ready", "first view permit"), REFUSED),
    PUBLISH: (ALLOCATION_FAILED,),
    "windows ready": (*REFUSED, FAULT_OF_MEMORY),
    "application ready": REFUSED,
    "application run": (NO_MEMORY, NO_THREAD),
    "lines ready": REFUSED,
    "lines judged": (NO_MEMORY,),
    "log ready": (*REFUSED, FAULT_OF_MEMORY),
    "log written": (FAULT_OF_MEMORY,),
    # Where a line finds no room, the read fails.
    "log opened": (FAULT_OF_MEMORY, "error: Read(Kind(OutOfMemory))"),
    LOOK: ("refused",),
}


@dataclass(frozen=True)
class Line:
    call: str
    answer: str

    @classmethod
    def read(cls, text: str) -> "Line":
        call, _, answer = text.partition(": ")
        return cls(call, answer)

    def is_fault(self) -> bool:
        return self.answer in FAULTS.get(self.call, ())


REFUSED_FOR_GOOD = Line("publish once more", ALLOCATION_FAILED)
# The call that ended a test prints no line; the fault is told at the end.
ENDED = "ended"


def ample_lines() -> dict[str, str]:
    """What each test prints with ample memory. It begins with a line that it is ready."""
    told: dict[str, str] = {}
    name = ""
    for line in (TESTS / "library_calls.txt").read_text().splitlines(keepends=True):
        if Line.read(line).call.endswith(" ready"):
            name = line.split()[0]
        told[name] = told.get(name, "") + line
    return told


def lines_of(text: str) -> list[Line]:
    return [Line.read(line) for line in text.splitlines()]


def told_by(outcome: Outcome) -> list[Line]:
    """The lines of a test, with the fault that ended it, if one did, before the commits that it then prints."""
    text, fault = (end.decode("ascii", "backslashreplace") for end in (outcome.stdout, outcome.stderr))
    if outcome.status == PASSED:
        require(text.endswith(WITHOUT_FAULT) and not fault, "the test passed, and told a fault")
        return lines_of(text.removesuffix(WITHOUT_FAULT))
    require(outcome.status == FAILED and fault.endswith(AFTER_THE_FAULT), "the test ended in no way known")
    lines = lines_of(text)
    commits = [line for line in lines if line.call.startswith(ENTRY)]
    before = lines[: len(lines) - len(commits)]
    return [*before, Line(ENDED, fault.removesuffix(AFTER_THE_FAULT)), *commits]


def refused_calls(told: list[Line], ample: list[Line]) -> list[str]:
    """The calls of a test that were refused memory. All other lines have to be those with ample memory."""
    refused: list[str] = []
    left = ample
    for place, line in enumerate(told):
        require(bool(left), f"this comes after the end: {line}")
        wanted, *left = left
        has_ended = line.call == ENDED
        line = Line(wanted.call, line.answer) if has_ended else line
        if line == wanted:
            continue
        require(line.call == wanted.call and line.is_fault(), f"wanted {wanted}: {line}")
        left = (
            left_after_the_end(left, told[:place])
            if has_ended
            else left_after_refusal(wanted, left, told[:place], line.call in refused)
        )
        refused.append(line.call)
    require(not left, f"the lines end before {left[:1]}")
    return refused


def left_after_the_end(left: list[Line], before: list[Line]) -> list[Line]:
    """The commits of the phases that were closed."""
    closed = sum(line.call in CLOSES for line in before)
    return [line for line in left if line.call in (f"{ENTRY}{phase}" for phase in range(closed))]


def left_after_refusal(wanted: Line, left: list[Line], before: list[Line], was_refused: bool) -> list[Line]:
    """What is to come after a call was refused and the test goes on."""
    if wanted.call == LOOK:
        return left
    if wanted.call == PUBLISH:
        return [*[line for line in before if line.call.startswith(VIEW)][-1:], REFUSED_FOR_GOOD]
    require(wanted.call in ASKED_ONCE_MORE, f"went on after a refused call: {wanted}")
    if not was_refused:
        return [wanted, *left]
    require(wanted.call in STORES, f"went on after a second refusal: {wanted}")
    return left[[line.call.endswith(" receipts") for line in left].index(True) :]


@dataclass
class Sweep:
    """All runs of the tests, and which of their calls were refused in them."""

    tally: Tally
    refused: Counter[str] = field(default_factory=Counter)
    answered_without_memory: int = 0

    def check(self, ample: list[Line], refusal: Refusal) -> None:
        try:
            self.refused.update(self.calls_refused(ample, refusal))
        except Difference as difference:
            self.tally.check(False, f"{refusal}: {difference}; {described(refusal.outcome)}")
        else:
            self.tally.check(True, str(refusal))

    def calls_refused(self, ample: list[Line], refusal: Refusal) -> list[str]:
        refused = refused_calls(told_by(refusal.outcome), ample)
        require(refusal.was_reached or not refused, "a call was refused memory that was there")
        require(refusal.and_all_after or len(refused) <= 1, f"one allocation was refused, and these were: {refused}")
        self.answered_without_memory += refused.count(LOOK) == 2
        return refused

    def finish(self) -> None:
        for call in FAULTS:
            self.tally.check(self.refused[call] > 0, f"{call} was never refused")
            print(f"{self.refused[call]:5} times refused: {call}")
        self.tally.check(
            self.answered_without_memory > 0, "no view of an unknown user was made while memory was refused"
        )
        print(
            f"{self.answered_without_memory:5} times a view of an unknown user was answered"
            " between two looks for memory that were refused"
        )


def tests_of_calls(program: Path) -> set[str]:
    listed = run([program, "--list"]).stdout.decode("ascii", "backslashreplace").splitlines()
    return {line.removeprefix(PREFIX).removesuffix(": test") for line in listed if line.startswith(PREFIX)}


def try_each(programs: list[Path], tally: Tally) -> None:
    ample = ample_lines()
    commands = {name: [program, PREFIX + name] for program in programs for name in tests_of_calls(program)}
    tally.check(set(commands) == set(ample), "each test of calls has its lines in library_calls.txt")
    with tempfile.TemporaryDirectory() as folder:
        shim = build_shim("refused_memory", Path(folder))
        if shim is None:
            return tally.skip("each allocation refused", "there is no C compiler")
        sweep = Sweep(tally)
        for name, text in ample.items():
            command = commands[name]
            tally.same(f"{name} with ample memory", run(command), Outcome(PASSED, (text + WITHOUT_FAULT).encode(), b""))
            for and_all_after in (False, True):
                for refusal in Refusing(shim, command).each(and_all_after):
                    sweep.check(lines_of(text), refusal)
        sweep.finish()


def main() -> None:
    words = parser_of(__doc__)
    words.add_argument(
        "tests",
        nargs="*",
        type=executable,
        default=[built_tests(name) for name in ("engine_tests", "phase_tests", "application_tests", "example_ledger")],
    )
    tally = Tally()
    try_each(words.parse_args().tests, tally)
    tally.finish()


if __name__ == "__main__":
    main()
