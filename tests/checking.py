#!/usr/bin/env python3
"""Shows what the built referee (crates/rubis_check) finds of histories: right ones, changed ones, malformed ones, and
those of an engine with a bug.

    tests/checking.py [CHECKER [PROGRAM]]

Right histories are those of the worked examples, one written by hand, and those that the program writes of random
inputs and of loads, with several workers. What is to be found of a changed one follows from the change: the history
written by hand says which reply was due.
"""

import itertools
import os
import random
import re
import resource
import sys
from argparse import Namespace
from dataclasses import replace
from pathlib import Path
from textwrap import indent
from typing import Iterable, Iterator

from lib import helps
from lib.checks import Tester, make_all
from lib.inputs import Text, random_options
from lib.load_model import Plan, load_of
from lib.model import Options, Outcome, open_auction
from lib.program import (
    BUILT,
    DOCUMENTS,
    EXAMPLES,
    LITTLE_MEMORY,
    TESTS,
    Tally,
    build_shim,
    built,
    executable,
    parser_of,
    run,
    run_typed,
)
from lib.records import Fault
from lib.refusing import Refusing
from worked import examples_of

REPLAYS = "the history replays"
UNREADABLE = "not PHASE NUMBER WORKER INDEX TEXT and a line feed"
READ_AT_ONCE = 1 << 16
LARGE = Options(workers=16, joined=4096, split=4096, threshold=64)
FEW = Options(workers=2, users=10, categories=2)
SMALL_ENGINE, REPLAY = ([sys.executable, "-B", EXAMPLES / name] for name in ("small_engine.py", "replay.py"))
# The load of docs/CHECKING.md.
WALK = Plan(workers=4, items=10, skew=150, views=50)

SCRIPTS = b"""\
0,item,0,0,Vase,10,100,1,3
0,bid,1,0.0,20,5
0,viewitem,0.0
0,comment,1,2,0.0,-3
0,viewbids,0.0
0,viewuser,2
0,buynow,3,0.0,2,50
0,viewcategory,0
0,bid,1,0.0,9,6
1,item,4,0,"A, B",5,60,1
1,bid,5,0.0,20,5
1,bid,6,1.0,7,61
1,comment,5,2,0.0,5
1,buynow,7,0.0,2,50
1,bid,99,0.0,30,1
1,viewcategory,1
1,viewitem,1.1
1,buynow,7,0.0,1,50
1,bid,5,0.0,50,7
1,viewcategory,9
"""
SEEN = (
    "viewitem seller=0 category=0 start=10 closes=100"
    " highest={highest} bidder={bidder} bids={bids} left={left} name={name}"
)
VASE = dict(highest=20, bidder=5, bids=2, left=3, name="Vase")
RIGHT = [
    "0 1 0 0 item 0.0",
    "0 2 1 0 item 1.0",
    "0 3 0 1 bid 0.0",
    "0 4 1 1 bid 1.0",
    "0 5 0 2 " + SEEN.format(**VASE),
    "0 6 1 2 refused 5 Closed",
    "0 7 0 3 comment 0.0",
    "0 8 1 3 comment 1.0",
    "0 9 0 4 bids 20:5:5:1.0 20:5:1:0.0",
    "0 10 0 5 user rating=2 comments=2",
    "0 11 0 6 buynow 0.0",
    "0 12 1 4 refused 7 NotEnough",
    "0 13 1 5 refused 1 NoSuchUser",
    "0 14 0 7 latest 1:1.0 1:0.0",
    "0 15 1 6 latest",
    "0 16 0 8 refused 4 BelowStart",
    "0 17 1 7 refused 3 NoSuchItem",
    "0 18 1 8 buynow 1.0",
    "0 19 1 9 refused 6 SoldOut",
    "0 20 1 10 refused 2 NoSuchCategory",
]

# Another text in a line.
OTHER_REPLIES = (
    (1, "item 0.1", "a serial too high"),
    (1, "item 1.0", "an id of another worker"),
    (3, "bid 1.0", "the reply to another bid"),
    (5, SEEN.format(**VASE | {"bidder": 1}), "the wrong leader of a tie"),
    (5, SEEN.format(**VASE | {"bids": 1}), "a bid that is counted late"),
    (5, SEEN.format(**VASE | {"highest": 19}), "another highest bid"),
    (5, SEEN.format(**VASE | {"left": 2}), "another stock"),
    (5, SEEN.format(**VASE | {"name": "Vas"}), "a name cut short"),
    (6, "bid 1.1", "a bid at the closing time that is accepted"),
    (6, "refused 4 BelowStart", "another refusal of a bid"),
    (7, "comment 0.1", "a comment that is left out of the serials"),
    (8, "comment 1.0\r", "a carriage return"),
    (8, "comment 1.00", "a zero more"),
    (8, "Comment 1.0", "a capital letter"),
    (8, "", "no text"),
    (9, "bids 20:5:1:0.0 20:5:5:1.0", "a list in another order"),
    (9, "bids 20:5:5:1.0", "a bid that is left out of a list"),
    (10, "user rating=-2 comments=2", "another sign"),
    (10, "user rating=2 comments=1", "another count"),
    (10, "user rating=2 comments=2 ", "a space more"),
    (11, "refused 7 NotEnough", "a purchase that is refused"),
    (12, "buynow 1.0", "more sold than there is"),
    (13, "refused 3 NoSuchItem", "another refusal of an unknown user"),
    (14, "latest 1:0.0 1:1.0", "latest items in another order"),
    (14, "latest 1:1.0", "an item that is left out"),
    (15, "latest 1:1.0", "an item of another category"),
    (16, "bid 0.1", "a bid below the start that is accepted"),
    (17, "refused 2 NoSuchCategory", "another refusal of an unknown item"),
    (18, "buynow 0.1", "a purchase by the serials of another worker"),
    (18, "bid 1.0", "the id under another word"),
    (19, "refused 7 NotEnough", "another refusal of what is sold"),
    (20, "latest", "a view of an unknown category"),
)

# Other lines in the place of some: from which on, how many, which lines, and what is found.
OTHER_LINES = (
    (3, 2, [RIGHT[3], RIGHT[2]], REPLAYS, "two bids that commute, swapped"),
    (8, 1, ["7 7 1 3 comment 1.0"], REPLAYS, "another phase and number"),
    (
        11,
        2,
        [RIGHT[11], RIGHT[10]],
        "line 11: 1,4 refused 7 NotEnough but buynow 1.0 was due",
        "a purchase and a refused one, swapped",
    ),
    (
        18,
        2,
        [RIGHT[18], RIGHT[17]],
        "line 18: 1,9 refused 6 SoldOut but bid 1.1 was due",
        "a bid before the purchase of the last one",
    ),
    (
        1,
        2,
        [RIGHT[0], "0 3 0 1 bid 0.0", "0 2 1 0 item 1.0"],
        "line 4: 0,1 stands in an earlier line",
        "a line moved, and left in its place",
    ),
    (
        4,
        1,
        [],
        f"line 4: 0,2 {SEEN.format(**VASE)} but {SEEN.format(**VASE | dict(bidder=1, bids=1))} was due",
        "a bid left out",
    ),
    (8, 1, [], "line 9: 0,5 user rating=2 comments=2 but user rating=-3 comments=1 was due", "a comment left out"),
    (20, 1, [], "1,10 stands in no line", "the last line left out"),
    (1, 20, [], "0,0 stands in no line", "no line at all"),
    (4, 1, [RIGHT[3], RIGHT[3]], "line 5: 1,1 stands in an earlier line", "a line twice"),
    (20, 1, [RIGHT[19], RIGHT[0]], "line 21: 0,0 stands in an earlier line", "the first line again at the end"),
    (20, 1, ["0 20 2 0 latest"], "line 20: 2,0 stands in no script", "a worker too many"),
    (20, 1, ["0 20 1 11 latest"], "line 20: 1,11 stands in no script", "an index too high"),
    (20, 1, ["0 20 16 0 latest"], "line 20: 16,0 stands in no script", "a worker past all"),
    (
        20,
        1,
        ["0 20 4294967295 4294967295 latest"],
        "line 20: 4294967295,4294967295 stands in no script",
        "the greatest numbers",
    ),
)

# Lines that can't be read, in the place of line 8.
NO_LINES = (
    (b"\n", "an empty line"),
    (b"0 8 1 3 comment 1.0", "no line feed, so that the next line goes on"),
    (b"0 8 1 comment 1.0\n", "three numbers"),
    (b"0 8 1 3\n", "no space after the numbers"),
    (b"0  8 1 3 comment 1.0\n", "two spaces"),
    (b" 0 8 1 3 comment 1.0\n", "a space at the start"),
    (b"0\t8 1 3 comment 1.0\n", "a tabulator"),
    (b"0 08 1 3 comment 1.0\n", "a leading zero"),
    (b"0 +8 1 3 comment 1.0\n", "a plus"),
    (b"0 8 -1 3 comment 1.0\n", "a minus"),
    (b"0 8 1 3.0 comment 1.0\n", "a point"),
    (b"18446744073709551616 8 1 3 comment 1.0\n", "a phase past 64 bits"),
    (b"0 18446744073709551616 1 3 comment 1.0\n", "a number past 64 bits"),
    (b"0 8 4294967296 3 comment 1.0\n", "a worker past 32 bits"),
    (b"0 8 1 4294967296 comment 1.0\n", "an index past 32 bits"),
    (b"\xef\xbb\xbf0 8 1 3 comment 1.0\n", "a byte order mark"),
    (b"\0\n", "a byte 0"),
    (b"9" * READ_AT_ONCE + b"\n", "a long line"),
    (b"\xff\xfe 8 1 3 comment 1.0\n", "bytes that are no text"),
)


def lines(texts: Iterable[str]) -> bytes:
    return b"".join(text.encode() + b"\n" for text in texts)


def status_of(found: str) -> int:
    """The exit status that docs/CHECKING.md has for what is found."""
    by_end = {
        REPLAYS: 0,
        "was due": 5,
        "in no script": 6,
        "in an earlier line": 6,
        "in no line": 6,
        "of its script": 7,
        UNREADABLE: 8,
    }
    return next(status for end, status in by_end.items() if found.endswith(end))


def finding(found: str) -> Outcome:
    return Outcome(status_of(found), found.encode() + b"\n", b"")


def words_of(options: Options) -> list[str]:
    return [f"--{name}={getattr(options, name)}" for name in ("workers", "users", "categories")]


class CheckerTester(Tester):
    """Runs the referee, on histories of the program."""

    def __init__(self, asked: Namespace, folder: Path, tally: Tally) -> None:
        super().__init__(folder, tally)
        self.checker, self.program = asked.checker, asked.program

    def history_of(self, scripts: bytes, options: Options) -> bytes:
        """The history that the program writes."""
        got = run([self.program, *replace(options, history=True, rows=False, report=False).words()], scripts)
        if (got.status, got.stderr) != (0, b""):
            sys.exit(f"{options.words()}: {got.stderr!r}")
        return got.stdout

    def command(self, history: bytes, options: Options, *asked: str) -> list:
        file = self.folder / "history"
        file.write_bytes(history)
        return [self.checker, *words_of(options), *asked, "--history", file]

    def finds(self, what: str, scripts: bytes, history: bytes, found: str, options: Options = FEW, *asked: str) -> None:
        self.tally.same(what, run(self.command(history, options, *asked), scripts), finding(found))


def worked_examples(tester: CheckerTester) -> None:
    """histories of all worked examples that are answered"""
    for path in sorted((TESTS / "worked").glob("*.txt")):
        for example in examples_of(path):
            if example.status == 0:
                options = options_of(example.words)
                scripts = "".join(f"{line}\n" for line in example.input).encode()
                history = tester.history_of(scripts, options)
                tester.finds(f"{path.name}: {example.name}", scripts, history, REPLAYS, options, "--order")


def options_of(words: list[str]) -> Options:
    named = itertools.pairwise([*words, "--"])
    return Options(
        **{word.removeprefix("--"): int(value) for word, value in named if word.startswith("--") and value.isdecimal()}
    )


def by_hand(tester: CheckerTester) -> None:
    """a history by hand, with each of its replies changed, and other lines in place of some"""
    tester.finds("the right one", SCRIPTS, lines(RIGHT), REPLAYS, FEW, "--strict")
    for number, text, what in OTHER_REPLIES:
        *place, due = RIGHT[number - 1].split(" ", 4)
        changed = [*RIGHT[: number - 1], " ".join([*place, text]), *RIGHT[number:]]
        found = f"line {number}: {place[2]},{place[3]} {printed(text.encode())} but {due} was due"
        tester.finds(what, SCRIPTS, lines(changed), found)
    for number, count, other, found, what in OTHER_LINES:
        changed = [*RIGHT[: number - 1], *other, *RIGHT[number - 1 + count :]]
        tester.finds(what, SCRIPTS, lines(changed), found)


def malformed_lines(tester: CheckerTester) -> None:
    """lines that can't be read"""
    for line, what in NO_LINES:
        history = lines(RIGHT[:7]) + line + lines(RIGHT[8:])
        # A line that ends too early is read with the next one, and then another text than the due one.
        found = (
            f"line 8: {UNREADABLE}"
            if line.endswith(b"\n")
            else f"line 8: 1,3 comment 1.0{RIGHT[8]} but comment 1.0 was due"
        )
        tester.finds(what, SCRIPTS, history, found)
    whole = lines(RIGHT)
    start = len(whole) - len(RIGHT[-1]) - 1
    for end in range(start + 1, len(whole)):
        tester.finds(f"the last line cut after {end - start} bytes", SCRIPTS, whole[:end], f"line 20: {UNREADABLE}")
    tester.finds("a byte after the last line", SCRIPTS, whole + b"0", f"line 21: {UNREADABLE}")


def across_reads(tester: CheckerTester) -> None:
    """lines across the end of what is read at once, right ones and changed ones"""
    views = 4_000
    right = [f"0 0 0 {index} latest" for index in range(views)]
    at = next(number for number in range(views) if len(lines(right[:number])) > READ_AT_ONCE - 36)
    start, line, scripts = len(lines(right[:at])), right[at], b"0,viewcategory,0\n" * views
    for before in range(len(line) + 2):
        # Longer numbers in the line before this one let it begin so many bytes before the end.
        more = READ_AT_ONCE - before - start
        longer = f"{10 ** min(more, 19)} {10 ** max(more - 19, 0)} 0 {at - 1} latest"
        for text, found in (
            (line, REPLAYS),
            (line + " 1:0.0", f"line {at + 1}: 0,{at} latest 1:0.0 but latest was due"),
        ):
            history = lines([*right[: at - 1], longer, text, *right[at + 1 :]])
            tester.finds(f"{before} bytes of a line before the end of a read, {text!r}", scripts, history, found)


def endless_lines(tester: CheckerTester) -> None:
    """a history with a line longer than 65,536 bytes: a fault at once, in little memory"""
    endless, long = tester.folder / "endless", tester.folder / "long"
    long.write_bytes(lines(RIGHT) + b"0 0 0 0 " + b"x" * (READ_AT_ONCE + 1))
    endless.symlink_to("/dev/zero")
    for path in (endless, long):
        got = run(
            [tester.checker, *words_of(FEW), "--history", path],
            SCRIPTS,
            preexec_fn=little_memory,
        )
        words = f"rubis_check: {path}: cannot be read: a line has more than 65536 bytes\n".encode()
        tester.tally.same(f"{path.name} as a history", got, Outcome(2, b"", words))


def little_memory() -> None:
    resource.setrlimit(resource.RLIMIT_AS, (LITTLE_MEMORY, LITTLE_MEMORY))


def quoted_bytes(tester: CheckerTester) -> None:
    """a wrong reply with bytes that steer a terminal: a question mark is shown in place of each"""
    replies = (b"item \x1b[2J0.0", b"\x1b]0;title\x07", b"item\t0.0\r", bytes(range(1, 10)), b"\x9b2J", b"item 0.0\x7f")
    for reply in replies:
        found = f"line 1: 0,0 {printed(reply)} but item 0.0 was due"
        tester.finds(f"{reply!r} as a reply", SCRIPTS, b"0 0 0 0 " + reply + b"\n", found)


def printed(reply: bytes) -> str:
    """A reply as the referee shows it."""
    return "".join(chr(byte) if 0x20 <= byte <= 0x7E else "?" for byte in reply)


def orders(tester: CheckerTester) -> None:
    """what may stand in any order, with stores first, and in the order of scripts"""
    contended = (EXAMPLES / "contended.csv").read_bytes()
    view_last = (EXAMPLES / "contended.history").read_bytes()
    late = "line 8: 0,3 stands after a later request of its script"
    for asked, found in (
        ((), REPLAYS),
        (("--order",), REPLAYS),
        (("--strict",), late),
        (("--order", "--strict"), late),
    ):
        tester.finds(f"a view that waited, {asked}", contended, view_last, found, FEW, *asked)
    item_last = lines(["0 0 0 1 latest", "0 0 0 0 item 0.0"])
    late = "line 2: 0,0 stands after a later request of its script"
    for asked, found in (((), REPLAYS), (("--order",), late), (("--strict",), late)):
        tester.finds(
            f"an item that waited, {asked}",
            b"0,item,0,0,Vase,10,100,1\n0,viewcategory,0\n",
            item_last,
            found,
            FEW,
            *asked,
        )
    bought_last = lines(["0 0 0 0 item 0.0", "0 0 0 2 bid 0.0", "0 0 0 1 buynow 0.0"])
    scripts = b"0,item,0,0,Vase,10,100,1\n0,buynow,1,0.0,1,2\n0,bid,1,0.0,20,3\n"
    for asked, found in (
        ((), REPLAYS),
        (("--order",), REPLAYS),
        (("--strict",), "line 3: 0,1 stands after a later request of its script"),
    ):
        tester.finds(f"a purchase that waited, {asked}", scripts, bought_last, found, FEW, *asked)


def opening_rows(tester: CheckerTester) -> None:
    """rows that stand before the history"""
    scripts = b"0,+item,0,0,Vase,10,100,1\n0,+bid,1,0.0,20,5\n0,bid,2,0.0,30,6\n1,bid,2,0.0,30,6\n"
    tester.finds("ids go on after the rows", scripts, lines(["0 0 0 0 bid 0.1", "0 0 1 0 bid 1.0"]), REPLAYS)
    found = "line 1: 0,0 bid 0.0 but bid 0.1 was due"
    tester.finds("an id that a row has", scripts, lines(["0 0 0 0 bid 0.0", "0 0 1 0 bid 1.0"]), found)
    tester.finds("neither scripts nor history", b"", b"", REPLAYS)


def faults(tester: CheckerTester) -> None:
    """faults, by their status and text"""
    asked, missing = tester.command(lines(RIGHT), FEW), tester.folder / "none"
    cases = (
        ("a record with a fault", asked, b"0,bid\n", 2, "record 1: wrong number of fields"),
        ("a worker too many", asked, b"2,viewuser,0\n", 2, "record 1: no such worker"),
        ("a row that is none", asked, b"0,+bid,1,0.0,20,5\n", 3, "row 1: refused"),
        (
            "no such file",
            [tester.checker, "--history", missing],
            b"",
            2,
            f"{missing}: cannot be read: No such file or directory (os error 2)",
        ),
        (
            "a folder",
            [tester.checker, "--history", tester.folder],
            b"",
            2,
            f"{tester.folder}: cannot be read: Is a directory (os error 21)",
        ),
    )
    for what, command, scripts, status, text in cases:
        tester.tally.same(what, run(command, scripts), Outcome(status, b"", f"rubis_check: {text}\n".encode()))
    for words in ([], ["--history"], ["--workers=17"], ["--users=1000001"], ["--strict=1"], ["history"], ["--rows"]):
        got = run([tester.checker, *words, *(["--history", "x"] if words[:1] not in ([], ["--history"]) else [])], b"")
        tester.tally.check((got.status, got.stdout) == (1, b"") and got.stderr, f"{words}: got {got}")
    if Path("/dev/full").exists():
        with open("/dev/full", "wb") as full:
            tester.tally.same(
                "a full disk",
                run(asked, SCRIPTS, stdout=full),
                Outcome(4, b"", b"rubis_check: output cannot be written\n"),
            )


def terminals(tester: CheckerTester) -> None:
    """scripts from a terminal: one Ctrl-D at the start of a line ends them, and two behind half a line"""
    asked = tester.command(lines(["0 0 0 0 latest"]), FEW)
    for typed in (b"0,viewcategory,0\n\x04", b"0,viewcategory,0\x04\x04"):
        tester.tally.same(f"{typed!r} on a terminal", run_typed(asked, typed), finding(REPLAYS))
    tester.tally.same(
        "one Ctrl-D alone on a terminal", run_typed(asked, b"\x04"), finding("line 1: 0,0 stands in no script")
    )


def interrupted_calls(tester: CheckerTester) -> None:
    """reads and writes that a signal interrupts, each second, third or fifth, also in a history of several
    reads: what is found is the same"""
    shim = build_shim("refused_calls", tester.folder)
    if shim is None:
        return tester.tally.skip(interrupted_calls.__doc__, "there is no C compiler")
    views = 3 * READ_AT_ONCE // len("0 0 0 1000 latest")
    long = [f"0 0 0 {index} latest" for index in range(views)]
    cases = (
        (SCRIPTS, RIGHT, REPLAYS),
        (SCRIPTS, [*RIGHT[:-1], "0 20 1 10 latest"], "line 20: 1,10 latest but refused 2 NoSuchCategory was due"),
        (b"0,viewcategory,0\n" * views, long, REPLAYS),
        (b"0,viewcategory,0\n" * (views - 1), long, f"line {views}: 0,{views - 1} stands in no script"),
    )
    for (scripts, history, found), every, most in itertools.product(cases, (2, 3, 5), (7, READ_AT_ONCE)):
        limits = {
            "LD_PRELOAD": str(shim),
            "INTERRUPTED": str(every),
            "READ_AT_MOST": str(most),
            "WRITE_AT_MOST": str(most),
        }
        got = run(tester.command(lines(history), FEW), scripts, env=os.environ | limits)
        tester.tally.same(
            f"each {every}th call is interrupted, {most} bytes a call, {len(history)} lines", got, finding(found)
        )


def refused_memory(tester: CheckerTester) -> None:
    """each allocation refused, alone and with all that come after it"""
    shim = build_shim("refused_memory", tester.folder)
    if shim is None:
        return tester.tally.skip(refused_memory.__doc__, "there is no C compiler")
    changed = [*RIGHT[:-1], "0 20 1 10 latest"]
    found = finding("line 20: 1,10 latest but refused 2 NoSuchCategory was due")
    refused = [Outcome(status, b"", b"rubis_check: no memory\n") for status in (1, 2, 3)]
    for and_all_after in (False, True):
        for refusal in Refusing(shim, tester.command(lines(changed), FEW), SCRIPTS).each(and_all_after):
            cut = refusal.outcome.status == 4 and found.stdout.startswith(refusal.outcome.stdout)
            lawful = refusal.outcome in refused or cut if refusal.was_reached else refusal.outcome == found
            tester.tally.check(lawful or refusal.outcome == found, f"{refusal}: got {refusal.outcome}")


def changed_at_random(tester: CheckerTester) -> None:
    """histories of random inputs with several workers, and each changed at a random line"""
    rng = random.Random(24)
    for number in range(100):
        options = replace(random_options(rng), workers=rng.choice((2, 3, 4, 16)))
        scripts = Text(rng, options, (0, 40)).made()
        try:
            open_auction(scripts, options)
        except Fault:
            continue
        history = tester.history_of(scripts, options).splitlines(keepends=True)
        tester.finds(f"input {number}", scripts, b"".join(history), REPLAYS, options, "--order")
        if history:
            for what, changed, found in changes(rng, history):
                tester.finds(f"input {number}, {what}", scripts, b"".join(changed), found, options)


def changes(rng: random.Random, history: list[bytes]) -> Iterator[tuple[str, list[bytes], str]]:
    """A history with a change at a random line, and what is found of it."""
    at = rng.randrange(len(history))
    before, line, after = history[:at], history[at], history[at + 1 :]
    *place, due = line.decode().removesuffix("\n").split(" ", 4)
    worker, index = place[2:]
    yield "a line twice", [*before, line, line, *after], f"line {at + 2}: {worker},{index} stands in an earlier line"
    yield "a line cut off", [*before, line[:-1]], f"line {at + 1}: {UNREADABLE}"
    more = [*before, b"0 0 16 0 latest\n", line, *after]
    yield "a line of no script", more, f"line {at + 1}: 16,0 stands in no script"
    for text in (due + "0", due[:-1], due.replace(".", ".1", 1) if "." in due else due.upper(), "refused 8 Other"):
        changed = [*before, f"{' '.join(place)} {text}\n".encode(), *after]
        found = f"line {at + 1}: {worker},{index} {text} but {due} was due"
        yield f"{text!r} in place of {due!r}", changed, found


def loads(tester: CheckerTester) -> None:
    """histories of 16 workers with 1,000,000 requests, on many items and on one, and with a line changed"""
    rng = random.Random(7)
    for what, share in (("many items", 0.0), ("one item", 0.9)):
        scripts = load(rng, share)
        history = tester.history_of(scripts, LARGE)
        tester.finds(what, scripts, history, REPLAYS, LARGE, "--order")
        place = history.rindex(b" bid ", 0, len(history) * 9 // 10)
        number = history.count(b"\n", 0, place) + 1
        worker, index = history[:place].rsplit(b"\n", 1)[-1].split()[2:]
        due = history[place + 1 :].split(b"\n", 1)[0]
        changed = history[:place] + b" bid 3.999999" + history[place + 1 + len(due) :]
        found = f"line {number}: {worker.decode()},{index.decode()} bid 3.999999 but {due.decode()} was due"
        tester.finds(f"{what}, with a line changed", scripts, changed, found, LARGE)


def load(rng: random.Random, share: float) -> bytes:
    """1,000,000 requests of 16 workers, such a share of them on one item."""
    workers, users = range(LARGE.workers), LARGE.users
    records = [
        f"{worker},item,{worker},{serial % 10},Item {serial},1,1000,{serial},1000000"
        for serial in range(100)
        for worker in workers
    ]
    for worker in itertools.islice(itertools.cycle(workers), 1_000_000 - len(records)):
        item = "0.0" if rng.random() < share else f"{rng.randrange(16)}.{rng.randrange(100)}"
        kind, user = rng.random(), rng.randrange(users)
        if kind < 0.7:
            records.append(f"{worker},bid,{user},{item},{rng.randrange(1, 10_000)},{rng.randrange(1, 1001)}")
        elif kind < 0.8:
            records.append(f"{worker},comment,{user},{rng.randrange(users)},{item},{rng.randint(-5, 5)}")
        elif kind < 0.85:
            records.append(f"{worker},buynow,{user},{item},1,{rng.randrange(1, 1001)}")
        elif kind < 0.9:
            records.append(f"{worker},viewuser,{user}")
        else:
            records.append(f"{worker},{rng.choice(('viewitem', 'viewbids'))},{item}")
    return lines(records)


def small_engine(tester: CheckerTester) -> None:
    """an engine in another language, without its bug and with it, and what examples/replay.py says of its
    histories and of altered ones"""
    found_stale = 0
    for workers, scripts, path in small_inputs(tester.folder):
        for seed in map(str, range(10)):
            right, stale = (run([*SMALL_ENGINE, *asked, path, seed]).stdout for asked in ((), ("--stale",)))
            tester.finds(f"the small engine at {seed}", scripts, right, REPLAYS, Options(workers=workers), "--strict")
            got = run(tester.command(stale, Options(workers=workers)), scripts)
            tester.tally.check(got.status == (0 if stale == right else 5), f"the stale engine at {seed}: got {got}")
            found_stale += stale != right
        for what, history in {"right": right, "stale": stale, **altered(right)}.items():
            replayed(
                tester,
                f"a history that is {what}",
                path,
                history,
                run(tester.command(history, Options(workers=workers)), scripts),
            )
    tester.tally.check(found_stale > 0, "the stale engine answers as the right one does")


def altered(history: bytes) -> dict[str, bytes]:
    first, *others = history.splitlines(keepends=True)
    phase, number, worker, _, text = first.split(b" ", 4)
    return {
        "without its last line": b"".join((first, *others[:-1])),
        "with its first line twice": b"".join((first, first, *others)),
        "with an index of no request": b" ".join((phase, number, worker, b"1000", text)),
        "with a line that ends early": history[:-1],
    }


def replayed(tester: CheckerTester, what: str, scripts: Path, history: bytes, wanted: Outcome) -> None:
    """The unproved referee of the examples gives the verdict that the proved one gave."""
    path = tester.folder / "replayed.history"
    path.write_bytes(history)
    got = run([*REPLAY, scripts, path])
    tester.tally.check(
        (got.status, got.stdout) == (wanted.status, wanted.stdout), f"examples/replay.py of {what}: {got}, not {wanted}"
    )


def small_inputs(folder: Path) -> Iterator[tuple[int, bytes, Path]]:
    """Inputs of the small engine: workers, bytes and file. The load has rows."""
    for workers, data, name in (
        (2, (EXAMPLES / "contended.csv").read_bytes(), "contended.csv"),
        (WALK.workers, load_of(WALK), "load.csv"),
    ):
        (folder / name).write_bytes(data)
        yield workers, data, folder / name


def help_and_version(tester: CheckerTester) -> None:
    """help, as docs/help has it, of which one example reads a pipe, and the version"""
    said = helps.help_and_version(tester.tally, tester.checker, "rubis_check", True, ("--history=none",))
    scripts = EXAMPLES / "contended.csv"
    (tester.folder / "scripts.csv").write_bytes(scripts.read_bytes())
    (tester.folder / "engine.history").write_bytes(run([*SMALL_ENGINE, scripts, "3"]).stdout)
    helps.examples(
        tester.tally,
        said,
        "rubis_check",
        tester.folder,
        {"rubis_check": tester.checker, "rubis_auction": tester.program},
    )


def shown(tester: CheckerTester) -> None:
    """the history by hand of docs/CHECKING.md, which lacks a bid, and the one that has it"""
    page, scripts = (DOCUMENTS / "CHECKING.md").read_text(), EXAMPLES / "first_example.csv"
    history = "".join(re.findall(r"(?m)^    (0 0 .*\n)", page))
    right = history.replace("highest=- bidder=- bids=0", "highest=10 bidder=1 bids=1")
    for what, text, status in (("wrong", history, 5), ("right", right, 0)):
        got = run(tester.command(text.encode(), Options()), scripts.read_bytes())
        shown = indent(got.stdout.decode(), "    ") in page
        tester.tally.check(got.status == status and shown, f"docs/CHECKING.md shows a {what} history: {got}")
        replayed(tester, f"the {what} history of docs/CHECKING.md", scripts, text.encode(), got)


CHECKS = (
    worked_examples,
    by_hand,
    malformed_lines,
    across_reads,
    endless_lines,
    quoted_bytes,
    orders,
    opening_rows,
    faults,
    terminals,
    interrupted_calls,
    refused_memory,
    changed_at_random,
    small_engine,
    help_and_version,
    shown,
    loads,
)


def main() -> None:
    words = parser_of(__doc__)
    words.add_argument("checker", nargs="?", type=executable, default=str(built("rubis_check")))
    words.add_argument("program", nargs="?", type=executable, default=str(BUILT))
    make_all(words, CHECKS, CheckerTester)


if __name__ == "__main__":
    main()
