#!/usr/bin/env python3
"""Shows what the built program does where memory is refused: the fault that docs/FORMATS.md names, or all
of its output, and nothing else.

    tests/refused_memory.py [PROGRAM]

For each input below, the first allocation is refused, then the second, and so on, until a run asks for no more; then
the same where all that come after are refused as well. The later the allocation, the later the part of the program
whose fault it is. Then the system grants so many bytes and no more, from few to many. A fault before the first byte
leaves the output empty. Where only the report lacks memory, what stands before it has been written whole. A run that a
signal ends, or that takes longer than ten minutes, has failed. Without a C compiler only the system refuses.
"""

import itertools
import random
import resource
import tempfile
from collections import Counter
from dataclasses import dataclass, replace
from pathlib import Path

from lib.histories import Difference, check_printed
from lib.inputs import Text
from lib.model import Options, Outcome, expected, failed, open_auction
from lib.program import BUILT, EXAMPLES, TESTS, Given, Tally, build_shim, described, executable, fault, parser_of, run
from lib.records import Fault
from lib.refusing import Refusing
from worked import examples_of

VASE = b"0,+item,0,0,Vase,10,100,1\n"
NO_MEMORY = [fault(status, "no memory") for status in (1, 2, 3, 4)]
NO_THREAD = fault(3, "thread not started")


@dataclass(frozen=True)
class Case:
    name: str
    data: bytes
    options: Options

    def is_answer(self, got: Outcome) -> bool:
        """Whether this is an outcome with ample memory."""
        try:
            asked, book = open_auction(self.data, self.options)
        except Fault as wanted:
            return got == failed(wanted)
        if self.options.workers == 1:
            return got == expected(self.data, self.options)
        try:
            check_printed(got.stdout.decode("ascii"), asked, book, self.options)
        except Difference:
            return False
        return (got.status, got.stderr) == (0, b"")

    def is_answer_without_report(self, got: Outcome) -> bool:
        """Whether the report alone was refused memory."""
        without = replace(self, options=replace(self.options, report=False))
        return (
            self.options.report
            and got == replace(NO_MEMORY[3], stdout=got.stdout)
            and without.is_answer(Outcome(0, got.stdout, b""))
        )

    def last_part(self) -> int:
        """The last part of the program that takes memory, by its status: options, reading, performing, writing. A
        history is written with none."""
        try:
            open_auction(self.data, self.options)
        except Fault as fault:
            return fault.status
        return 3 if self.options.history and not self.options.report else 4

    def may_answer(self, got: Outcome) -> bool:
        is_named = got in NO_MEMORY or (got == NO_THREAD and self.options.workers > 1)
        return is_named or self.is_answer(got) or self.is_answer_without_report(got)


class RefusedOptions(Case):
    def last_part(self) -> int:
        return 1

    def is_answer(self, got: Outcome) -> bool:
        """The words are the option parser's own."""
        return got.status == 1 and got.stdout == b"" and got.stderr.startswith(b"error: ")


def cases() -> list[Case]:
    first = (EXAMPLES / "first_example.csv").read_bytes()
    contended = (EXAMPLES / "contended.csv").read_bytes()
    alone = Options(joined=2, split=2, threshold=1, users=10, categories=2)
    both = Options(workers=2, joined=2, split=3, threshold=1, users=10, categories=2)
    rows = Options(joined=8, split=8, threshold=1, users=5, categories=3)
    three = replace(both, workers=3)
    pair = replace(both, split=2)
    return [
        Case("no request", b"", Options(report=True, categories=1)),
        Case("the first example, with no words", first, Options()),
        Case(
            "two equal bids, and a view that waits for both",
            worked("a view of a hot item waits for the merged bids"),
            pair,
        ),
        Case(
            "comments on a hot user: replies and report",
            worked("what is hot, and who was commented on"),
            replace(pair, report=True),
        ),
        *with_each_output("one worker", first, alone),
        *with_each_output("two workers, hot objects and a stash", contended, both),
        *with_each_output("rows and a script", large(rows), rows),
        *with_each_output("three workers, longer scripts", large(three), three),
        Case("two workers in threads: history and report", *crowd()),
        Case("two workers in threads: a text of each one's replies", *throng()),
        Case("four workers, whose input threads read", *long_input()),
        Case("a fault of the third record", first.replace(b"viewitem", b"viewItem"), alone),
        Case("a refused row", b"0,+bid,1,0.0,10,5\n", alone),
        RefusedOptions("refused options", b"", Options(workers=17)),
    ]


def worked(name: str) -> bytes:
    """The input of the worked example of several phases whose name begins so."""
    examples = examples_of(TESTS / "worked" / "phases.txt")
    return next(example.text() for example in examples if example.name.startswith(name))


def with_each_output(name: str, data: bytes, options: Options) -> list[Case]:
    outputs = {"replies": {}, "history": {"history": True}, "rows": {"rows": True}}
    return [
        Case(f"{name}: {output}{' and report' if report else ''}", data, replace(options, report=report, **flags))
        for output, flags in outputs.items()
        for report in (False, True)
    ]


def crowd() -> tuple[bytes, Options]:
    """Two workers bid on four items, in phases that are long enough for threads, each item in a shard of its own."""
    calls = (b"bid,1,0.%d,10,5", b"bid,1,0.%d,10,5", b"bid,1,0.%d,10,5", b"viewitem,0.%d")
    scripts = [
        b"%d,%s\n" % (worker, calls[index // 4 % 4] % (index % 4)) for worker in range(2) for index in range(300)
    ]
    return VASE * 4 + b"".join(scripts), Options(
        workers=2, joined=150, split=150, threshold=1, history=True, report=True
    )


def throng() -> tuple[bytes, Options]:
    """Two workers have so many requests that threads make the text of the replies, in few phases."""
    requests = 10_000
    scripts = [b"%d,viewuser,%d\n" % (worker, index % 4) for worker in range(2) for index in range(requests)]
    return b"".join(scripts), Options(workers=2, joined=requests, split=requests)


def long_input() -> tuple[bytes, Options]:
    """Four workers look at a user, and put up an item at times, in an input that is long enough for threads
    and in phases that are not."""
    views = b"".join(b"%d,viewuser,1\n" % worker for worker in range(4))
    items = b"".join(b"%d,item,1,0,Cup,1,1000,2\n" % worker for worker in range(4))
    return VASE + (views * 250 + items) * 6, Options(workers=4, joined=128, split=128)


def large(options: Options) -> bytes:
    """A random input of these options with rows and requests, the same each time."""
    texts = (Text(random.Random(seed), options, (0, 60)).made() for seed in itertools.count())
    return next(text for text in texts if is_large(text, options))


def is_large(data: bytes, options: Options) -> bool:
    try:
        asked, _ = open_auction(data, options)
    except Fault:
        return False
    return len(asked.rows) > 5 and 30 < asked.requests() < 80


def refuse_each(refusing: Refusing, case: Case, tally: Tally, and_all_after: bool) -> None:
    outcomes: list[Outcome] = []
    for refusal in refusing.each(and_all_after):
        outcome = refusal.outcome
        right = case.may_answer(outcome) if refusal.was_reached else case.is_answer(outcome)
        tally.check(right, f"{case.name}, {refusal}: {described(outcome)}")
        if refusal.was_reached:
            outcomes.append(outcome)
    what = f"{case.name}: each allocation{' and all after it' if and_all_after else ''} refused"
    tally.check(bool(outcomes), f"{what}: none was, so that nothing was tried")
    faults = [outcome.status for outcome in outcomes if replace(outcome, stdout=b"") in (*NO_MEMORY, NO_THREAD)]
    parts = [status for status, _ in itertools.groupby(faults)]
    wanted = list(range(1, case.last_part() + 1))
    tally.check(parts == wanted, f"{what}: faults come with the statuses {parts} and not {wanted}")
    tell(what, outcomes)


def tell(what: str, outcomes: list[Outcome]) -> None:
    kinds = Counter(map(kind_of, outcomes))
    told = ", ".join(f"{count} times {kind}" for kind, count in sorted(kinds.items()))
    print(f"{what}: {told}", flush=True)


def kind_of(outcome: Outcome) -> str:
    text = outcome.stderr.decode("ascii", "replace").partition("\n")[0].removeprefix("rubis_auction: ")
    return f"{outcome.status} ({text or 'answered'})"


def run_granted(megabytes: int, command: list, stdin: Given = b"") -> Outcome:
    """A run to which the system grants so much memory at most."""
    most = megabytes * 2**20
    return run(command, stdin, preexec_fn=lambda: resource.setrlimit(resource.RLIMIT_AS, (most, most)))


def least_granted(program: Path) -> int:
    """How many megabytes an empty input needs. With less the system may not even load the program."""
    return next(megabytes for megabytes in range(1, 1000) if run_granted(megabytes, [program]) == Outcome(0, b"", b""))


def limit_address_space(program: Path, tally: Tally) -> None:
    """Four workers bid on one item, each bid is accepted, and the system grants ever more memory."""
    bids = 50_000
    data = VASE + b"".join(b"%d,bid,0,0.0,10,5\n" % worker * bids for worker in range(4))
    lines = (f"{worker},{index},bid {worker}.{index}\n" for worker in range(4) for index in range(bids))
    answer = Outcome(0, "".join(lines).encode("ascii"), b"")
    command = [program, "--workers=4", "--split=4096"]
    outcomes = []
    least = least_granted(program)
    for megabytes in range(least, least + 120, 3):
        outcome = run_granted(megabytes, command, data)
        tally.check(outcome in (*NO_MEMORY, NO_THREAD, answer), f"{megabytes} MB granted: {described(outcome)}")
        outcomes.append(outcome)
    tell(f"200,000 bids, with {least} to {least + 117} MB granted", outcomes)
    tally.same("200,000 bids, with no limit", run(command, data), answer)


def read_without_end(program: Path, tally: Tally) -> None:
    with open("/dev/zero", "rb") as endless:
        outcome = run_granted(100, [program], endless)
    tally.same("a field without an end, with 100 MB granted", outcome, NO_MEMORY[1])
    tell("a field without an end", [outcome])


def refuse_all(program: Path, tally: Tally) -> None:
    with tempfile.TemporaryDirectory() as folder:
        shim = build_shim("refused_memory", Path(folder))
        if shim is None:
            return tally.skip("each allocation refused", "there is no C compiler")
        for case, and_all_after in itertools.product(cases(), (False, True)):
            refuse_each(Refusing(shim, [program, *case.options.words()], case.data), case, tally, and_all_after)


def main() -> None:
    words = parser_of(__doc__)
    words.add_argument("program", nargs="?", type=executable, default=str(BUILT))
    program = words.parse_args().program
    tally = Tally()
    refuse_all(program, tally)
    limit_address_space(program, tally)
    read_without_end(program, tally)
    tally.finish()


if __name__ == "__main__":
    main()
