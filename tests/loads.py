#!/usr/bin/env python3
"""Shows that the built generator writes the loads of docs/CHECKING.md, and that the auction takes them.

    tests/loads.py [--generator PROGRAM] [--auction PROGRAM] [--only CHECK]

Random loads are compared byte by byte with those of a model. Of larger ones the shares of the kinds of requests, and
how often items, users and categories are named, lie within five standard deviations of what the options and Zipf's law
say, which is computed here in floating point.
"""

import functools
import os
import random
import resource
from argparse import Namespace
from collections import Counter
from dataclasses import replace
from pathlib import Path

from lib import helps
from lib.checks import Tester, make_all
from lib.load_model import Plan, load_of
from lib.model import (
    Book,
    Entry,
    Options,
    Outcome,
    Run,
    choose_hot,
    is_put_off,
    is_split,
    open_auction,
    quota,
    report_text,
)
from lib.program import EXAMPLES, Tally, build_shim, built, described, executable, parser_of, run
from lib.refusing import Refusing

PLANS = 60
DRAWN = 200_000
BIDS = Plan(views=0, comments=0, purchases=0, new_items=0)
NO_MEMORY = b"rubis_load: no memory\n"
# The load of examples/skewed.csv, and how the auction makes its report.
SKEWED = Plan(
    requests=240, workers=4, items=12, users=6, categories=3, skew=150, views=30, comments=20, purchases=5, new_items=10
)
SKEWED_OPTIONS = Options(workers=4, joined=8, split=24, threshold=3, users=6, categories=3, report=True)


class GeneratorTester(Tester):
    """Runs the generator, and compares what loads have with what they should have."""

    def __init__(self, asked: Namespace, folder: Path, tally: Tally) -> None:
        super().__init__(folder, tally)
        self.generator, self.auction = asked.generator, asked.auction

    def load(self, plan: Plan) -> bytes:
        got = run([self.generator, *plan.words()])
        self.tally.check(got.status == 0 and not got.stderr, f"{plan}: {described(got)}")
        return got.stdout

    def requests(self, plan: Plan) -> list[list[str]]:
        """The requests of a load, each as its fields."""
        return [line.split(",") for line in self.load(plan).decode().splitlines()[plan.items :]]

    def near(self, what: str, count: int, tries: int, share: float) -> None:
        """A count is within five standard deviations of its share of so many tries."""
        off = abs(count - tries * share)
        self.tally.check(
            off <= 5 * (tries * share * (1 - share)) ** 0.5, f"{what}: {count} of {tries}, and not {share:.3%}"
        )

    def alike(self, what: str, counts: Counter, kinds: int) -> None:
        """So many kinds have counts that are as far from one another as chance makes them (Pearson's test)."""
        each = counts.total() / kinds
        square = sum((counts[kind] - each) ** 2 for kind in counts) / each + (kinds - len(counts)) * each
        self.tally.check(
            abs(square - kinds) <= 5 * (2 * kinds) ** 0.5, f"{what}: {square:.0f} where {kinds} is expected"
        )


def same_bytes(tester: GeneratorTester) -> None:
    """loads beside the model"""
    rng = random.Random(11)
    for plan in [Plan(), *(random_plan(rng) for _ in range(PLANS))]:
        tester.tally.check(tester.load(plan) == load_of(plan), f"{plan}: not the model's load")
    usual = run([tester.generator])
    tester.tally.same("no words", usual, Outcome(0, load_of(Plan()), b""))
    longer = tester.load(replace(SKEWED, requests=5000))
    tester.tally.check(longer.startswith(load_of(SKEWED)), "a longer load begins otherwise")
    tester.tally.check(tester.load(replace(SKEWED, seed=2)) != load_of(SKEWED), "two seeds give one load")


def random_plan(rng: random.Random) -> Plan:
    shares = sorted(rng.choices(range(101), k=4))
    views, comments, purchases, new_items = (share - before for share, before in zip(shares, [0, *shares]))
    return Plan(
        requests=rng.choice((0, 1, 1023, 1024, 1025, rng.randrange(4000))),
        workers=rng.randint(1, 16),
        items=rng.choice((1, 2, 1024, 1025, rng.randint(1, 3000))),
        users=rng.choice((1, 1_000_000, rng.randint(1, 1000))),
        categories=rng.choice((1, 1_000_000, rng.randint(1, 100))),
        skew=rng.choice((0, 1, 100, 200, rng.randint(0, 200))),
        views=views,
        comments=comments,
        purchases=purchases,
        new_items=new_items,
        seed=rng.choice((0, 2**64 - 1, rng.getrandbits(64))),
    )


def shares(tester: GeneratorTester) -> None:
    """shares of the kinds of requests"""
    for plan in (
        Plan(requests=DRAWN),
        Plan(requests=DRAWN, workers=3, views=10, comments=25, purchases=30, new_items=15, seed=9),
    ):
        kinds = Counter(fields[1] for fields in tester.requests(plan))
        bids = 100 - plan.views - plan.comments - plan.purchases - plan.new_items
        wanted = {"comment": plan.comments, "buynow": plan.purchases, "item": plan.new_items, "bid": bids}
        wanted |= dict.fromkeys(("viewitem", "viewbids", "viewcategory", "viewuser"), plan.views / 4)
        for kind, percent in wanted.items():
            tester.near(f"{kind} of {plan}", kinds[kind], DRAWN, percent / 100)


def skews(tester: GeneratorTester) -> None:
    """Zipf's law of items, at exponents from 0 to 2"""
    for skew in (0, 50, 99, 100, 150, 200):
        plan = replace(BIDS, requests=DRAWN, workers=4, items=1000, skew=skew)
        named = Counter(fields[3] for fields in tester.requests(plan))
        weights = [(place + 1) ** (-skew / 100) for place in range(plan.items)]
        for first, end in ((0, 1), (1, 2), (2, 3), (9, 10), (3, 30), (30, 300), (300, 1000)):
            count = sum(named[plan.item(place)] for place in range(first, end))
            tester.near(
                f"items {first} to {end - 1}, skew {skew}", count, DRAWN, sum(weights[first:end]) / sum(weights)
            )
        if skew == 0:
            tester.alike("items without skew", named, plan.items)


def named_alike(tester: GeneratorTester) -> None:
    """users, categories, stars, start prices and amounts"""
    bids = tester.requests(replace(BIDS, requests=DRAWN, users=500))
    tester.alike("bidders", Counter(fields[2] for fields in bids), 500)
    tester.alike("amounts, in hundreds", Counter((int(fields[4]) - 100) * 100 // 999_901 for fields in bids), 100)
    comments = tester.requests(replace(BIDS, requests=DRAWN, users=500, comments=100))
    for what, place, kinds in (("authors", 2, 500), ("users commented on", 3, 500), ("stars", 5, 11)):
        tester.alike(what, Counter(fields[place] for fields in comments), kinds)
    items = tester.requests(replace(BIDS, requests=DRAWN, users=500, categories=50, new_items=100))
    for what, place, kinds in (("sellers", 2, 500), ("categories", 3, 50), ("start prices", 5, 100)):
        tester.alike(what, Counter(fields[place] for fields in items), kinds)


def taken(tester: GeneratorTester) -> None:
    """the auction takes loads, and refuses none of their requests"""
    for workers, skew in ((1, 0), (2, 200), (4, 99), (16, 150)):
        plan = Plan(
            requests=20_000, workers=workers, items=200, skew=skew, views=40, comments=15, purchases=10, new_items=10
        )
        options = Options(workers=workers, joined=64, split=512)
        got = run([tester.auction, *options.words()], tester.load(plan))
        kinds = Counter(line.split(b",", 2)[2].split(b" ")[0] for line in got.stdout.splitlines())
        whole = got.status == 0 and kinds.total() == plan.requests and not kinds[b"refused"]
        tester.tally.check(whole, f"{plan}: status {got.status}, {kinds}")


def example(tester: GeneratorTester) -> None:
    """the skewed example and its report"""
    load = (EXAMPLES / "skewed.csv").read_bytes()
    tester.tally.check(load == load_of(SKEWED), "examples/skewed.csv: not the model's load")
    tester.tally.check(load == tester.load(SKEWED), "examples/skewed.csv: not the generator's load")
    asked, book = open_auction(load, SKEWED_OPTIONS)
    report = (EXAMPLES / "skewed.report").read_text()
    tester.tally.check(
        report == report_text(run_in_turn(book, asked.scripts), book), "examples/skewed.report: not the model's"
    )
    for _ in range(10):
        got = run([tester.auction, *SKEWED_OPTIONS.words()], load).stdout.decode()
        reported = "".join(line for line in got.splitlines(keepends=True) if line[0].isalpha())
        tester.tally.check(reported == report, f"examples/skewed.report: not the program's {reported}")


def run_in_turn(book: Book, scripts: list[list]) -> Run:
    """One worker after the other in each phase. Where nothing is refused, each order of a
    phase gives the same report."""
    done, coming = Run(), [list(enumerate(script)) for script in scripts]
    waiting, entries = [[] for _ in scripts], []
    while any(coming) or any(waiting):
        phase = len(done.hot_sets)
        hot = choose_hot(entries, SKEWED_OPTIONS) if is_split(phase) else []
        entries, most = [], quota(phase, SKEWED_OPTIONS)
        for worker in range(len(scripts)):
            due = waiting[worker] + coming[worker][:most]
            coming[worker] = coming[worker][most:]
            waiting[worker] = [call for call in due if is_put_off(call[1], hot)]
            performed = (call for call in due if not is_put_off(call[1], hot))
            entries += [
                Entry(phase, 0, worker, index, request, book.perform(worker, request)) for index, request in performed
            ]
        done.entries += entries
        done.hot_sets.append(hot)
    return done


def help_and_version(tester: GeneratorTester) -> None:
    """help, as docs/help has it, and the version"""
    said = helps.help_and_version(tester.tally, tester.generator, "rubis_load", True)
    usual = {f"--{option}={usual}" for option, _, _, usual in helps.NUMBER.findall(said)}
    tester.tally.check(usual == set(map(str, Plan().words())), f"what --help says of numbers: {usual}")
    helps.examples(tester.tally, said, "rubis_load", tester.folder, {"rubis_load": tester.generator})


def refused_words(tester: GeneratorTester) -> None:
    """words that are refused, and the longest load"""
    for words in (
        "--requests=16000001",
        "--workers=0",
        "--workers=17",
        "--items=0",
        "--items=1000001",
        "--users=0",
        "--categories=1000001",
        "--skew=201",
        "--skew=0.5",
        "--views=101",
        "--new-items=101",
        "--seed=-1",
        f"--seed={2**64}",
        "--seed=1 --seed=1",
        "--requests",
        "load",
        "--help",
    ):
        got = run([tester.generator, *words.split()])
        tester.tally.check(
            got.status == 1 and not got.stdout and got.stderr and not got.stderr.startswith(b"rubis_load: "),
            f"{words}: {described(got)}",
        )
    shares, long = (
        b"rubis_load: shares of more than 100 percent\n",
        b"rubis_load: more than 1000000 rows and requests for a worker\n",
    )
    for words, text in (
        ("--views=60 --comments=37", shares),
        ("--requests=1000000 --items=1", long),
        ("--requests=2999999 --items=1 --workers=3", long),
        ("--requests=1000000 --items=1 --views=101", None),
        ("--requests=1000000 --items=1 --views=100", long),
    ):
        got = run([tester.generator, *words.split()])
        tester.tally.check(
            got.status == 1 and not got.stdout and (text is None or got.stderr == text), f"{words}: {described(got)}"
        )
    no_text = run([tester.generator, b"--seed=\xff"])
    tester.tally.check(
        no_text.status == 1 and no_text.stderr.startswith(b"error: "), f"a word that is no text: {described(no_text)}"
    )
    longest = run([tester.generator, "--requests=999999", "--items=1"])
    tester.tally.check(longest.status == 0 and longest.stdout.count(b"\n") == 1_000_000, "the longest load of a worker")


def refused_output(tester: GeneratorTester) -> None:
    """output that cannot be written"""
    load, words = load_of(SKEWED), [tester.generator, *SKEWED.words()]
    unwritten = Outcome(4, b"", b"rubis_load: output cannot be written\n")
    if os.path.exists("/dev/full"):
        with open("/dev/full", "wb") as full:
            tester.tally.same("to /dev/full", run(words, stdout=full), unwritten)
    for size in (0, 1, 1024, len(load) - 1, len(load)):
        with open(tester.folder / "cut", "wb") as cut:
            limit = functools.partial(resource.setrlimit, resource.RLIMIT_FSIZE, (size, size))
            got = run(words, stdout=cut, restore_signals=False, preexec_fn=limit)
        wanted = Outcome(0, b"", b"") if size == len(load) else unwritten
        tester.tally.same(f"to a file of at most {size} bytes", got, wanted)
        written = (tester.folder / "cut").read_bytes()
        tester.tally.check(written == load[:size], f"a file of at most {size} bytes has {len(written)}")


def refused_memory(tester: GeneratorTester) -> None:
    """each allocation refused in turn, alone and with all after it"""
    shim = build_shim("refused_memory", tester.folder)
    if shim is None:
        return tester.tally.skip(refused_memory.__doc__, "there is no C compiler")
    plan = replace(SKEWED, requests=1500)
    whole = Outcome(0, load_of(plan), b"")
    statuses = set()
    for and_all_after in (False, True):
        for refusal in Refusing(shim, [tester.generator, *plan.words()]).each(and_all_after):
            got = refusal.outcome
            statuses.add(got.status)
            part = got.status == 4 and whole.stdout.startswith(got.stdout)
            named = got.stderr == NO_MEMORY and (part or got.status in (1, 3) and not got.stdout)
            tester.tally.check(got == whole or refusal.was_reached and named, f"{refusal}: {described(got)}")
    tester.tally.check(statuses == {0, 1, 3, 4}, f"statuses {statuses} where memory is refused")


CHECKS = (
    same_bytes,
    shares,
    skews,
    named_alike,
    taken,
    example,
    help_and_version,
    refused_words,
    refused_output,
    refused_memory,
)


def main() -> None:
    words = parser_of(__doc__)
    words.add_argument("--generator", type=executable, default=str(built("rubis_load")))
    words.add_argument("--auction", type=executable, default=str(built("rubis_auction")))
    make_all(words, CHECKS, GeneratorTester)


if __name__ == "__main__":
    main()
