"""The systems that bench/run compares, and how each does a load."""
import os
import statistics
import subprocess
import sys
from argparse import Namespace
from typing import Iterable, NamedTuple

import delays
import instructions
import lite
import loads
import postgres
import programs
import redis_server

USERS, CATEGORIES, ITEMS = 1000, 100, 10_000

# So many shards has a worker unless it is said, and the auction has at most.
SHARDS_OF_A_WORKER, MOST_SHARDS = 4, 64

SMALL, LARGE = (64, 64), (64, 4096)
# With replies while requests come, a part of at most so many requests is one joined phase.
SERVING = (128, 4096)

# What `rubis_check` ends with if a request stands in no line.
LACKING = 6

# Of systems that are no databases and no modes of plain Rust.
PROGRAM, ONE_PASS = "program", "one_pass"

# The most tries of what takes long.
FEW_TRIES = 3


# How many tries have quartiles.
ENOUGH = 5


class Tries(NamedTuple):
    """Of some tries the median and the quartiles; of a few the least and the greatest in place of these."""

    value: float
    low: float
    high: float

    @staticmethod
    def of(found: Iterable[float]) -> "Tries":
        found = list(found)
        if len(found) < ENOUGH:
            return Tries(statistics.median(found), min(found), max(found))
        low, middle, high = statistics.quantiles(found, method="inclusive")
        return Tries(middle, low, high)


class Load(NamedTuple):
    """What the generator is asked for, beside requests and workers."""

    name: str
    items: int = ITEMS
    skew: int = 0
    views: int = 0
    comments: int = 0
    purchases: int = 0
    new_items: int = 0

    def words(self) -> list[str]:
        market = [f"--items={self.items}", f"--skew={self.skew}", f"--users={USERS}", f"--categories={CATEGORIES}"]
        shares = [f"--views={self.views}", f"--comments={self.comments}", f"--purchases={self.purchases}"]
        return [*market, *shares, f"--new-items={self.new_items}"]


ONE_ITEM = Load("bids on one item", items=1)
UNIFORM = Load("bids on 10,000 items")
# Its views of the one item are stashed where it is hot.
VIEWED = Load("bids on one item, 10 % views", items=1, views=10)
BIDDING = Load("bidding mix", skew=100, views=85, comments=3, purchases=2, new_items=2)


class Policy(NamedTuple):
    """Quotas, how many objects are hot at most and from how many stores on, and how many shards there are, if that is
    said."""

    quotas: tuple = LARGE
    hot: int = 8
    threshold: int = 8
    shards: int | None = None

    def of_workers(self, workers: int) -> "Policy":
        """The same with its shards said."""
        return self._replace(shards=self.shards or min(MOST_SHARDS, SHARDS_OF_A_WORKER * workers))

    def words(self, workers: int) -> list[str]:
        joined, split = self.quotas
        quotas = [f"--joined={joined}", f"--split={split}", f"--threshold={self.threshold}", f"--hot={self.hot}"]
        return [*auction_words(workers), f"--shards={self.of_workers(workers).shards}", *quotas]


def auction_words(workers: int) -> list[str]:
    """What auction and referee are both told of a load."""
    return [f"--workers={workers}", f"--users={USERS}", f"--categories={CATEGORIES}"]


def split_words(words: list[str]) -> list[str]:
    """Each `--name=value` as two words, which plain Rust wants."""
    return [part for word in words for part in word.split("=", 1)]


class Systems:
    """All systems, over loads that are made once. As a `with` it keeps a PostgreSQL server alive where one can be
    had."""

    def __init__(self, built: dict[str, str], asked: Namespace, folder: str, end: float) -> None:
        """No further try begins that would not be done by the end, a time of the clock that never goes back."""
        self.built, self.asked, self.folder, self.end = built, asked, folder, end
        self.turns = 0
        self.said = []
        self.server = None
        for compiler, name, what in (("rustc", "plain", "plain Rust"), ("cc", ONE_PASS, "C, in one pass,")):
            if name not in built:
                self.skip(f"{compiler} is not installed: {what} is left out.")
        if "windows" not in built:
            self.skip("Windows were left out (--skip).")
        if not instructions.is_there():
            self.skip("valgrind is not installed: instructions were left out.")
        if "redis" in asked.skip or not redis_server.is_there():
            self.skip("Redis was left out (--skip)." if "redis" in asked.skip else "Redis is not installed: left out.")
        if "referee" not in built:
            self.skip("Checking a history was left out (--skip).")
        if lite.sqlite3 is None and "sqlite" not in asked.skip:
            self.skip("Python has no sqlite3 here: SQLite is left out.")
            asked.skip.append("sqlite")
        elif "sqlite" in asked.skip:
            self.skip("SQLite was left out (--skip).")
        self.empty_statement = None if "sqlite" in asked.skip else lite.empty_statement()

    def __enter__(self) -> "Systems":
        if "postgres" in self.asked.skip:
            self.skip("PostgreSQL was left out (--skip).")
        elif postgres.tools() is None:
            self.skip("PostgreSQL is not installed: left out.")
        else:
            self.server = postgres.Server().__enter__()
            self.server_version = self.server.version()
        return self

    def __exit__(self, *cause: object) -> None:
        if self.server:
            self.server.__exit__(*cause)

    def skip(self, words: str) -> None:
        self.said.append(words)
        print(words, file=sys.stderr)

    def load(self, load: Load, workers: int, requests: int) -> str:
        """The file of a load."""
        path = f"{self.folder}/{load.items}-{load.skew}-{load.views}-{workers}-{requests}.csv"
        if not os.path.exists(path):
            words = [self.built["load"], f"--requests={requests}", f"--workers={workers}", *load.words()]
            with open(path, "wb") as text:
                subprocess.run(words, stdout=text, check=True)
        return path

    def command(self, mode: str, policy: Policy, workers: int) -> list[str]:
        """The words of the auction's program, of a mode of plain Rust, or of C in one pass."""
        if mode == ONE_PASS:
            return [self.built[ONE_PASS]]
        if mode == PROGRAM:
            return [self.built[PROGRAM], *policy.words(workers)]
        return [self.built["plain"], "--mode", mode, *split_words(policy.words(workers))]

    def has(self, mode: str) -> bool:
        return (mode if mode in (PROGRAM, ONE_PASS) else "plain") in self.built

    def whole(self, mode: str, load: Load, workers: int, requests: int, policy: Policy = Policy()) -> programs.Use:
        return programs.whole_of(self.command(mode, policy, workers), self.load(load, workers, requests))

    def executing(
        self, mode: str, load: Load, workers: int, requests: int, policy: Policy = Policy()
    ) -> tuple[int, float]:
        """How many requests, and the seconds from the last bytes of the input to the end of the command."""
        return requests, programs.executing_of(self.command(mode, policy, workers), self.load(load, workers, requests))

    def history(self, load: Load, workers: int, requests: int, policy: Policy = Policy()) -> str:
        """The file of the history that the auction writes of a load. The one before it is overwritten."""
        path = f"{self.folder}/history"
        words = [*self.command("program", policy, workers), "--history"]
        programs.write_output(words, self.load(load, workers, requests), path)
        return path

    def rows(self, load: Load, workers: int, requests: int) -> bytes:
        """The rows that the auction writes of a load."""
        words = [*self.command("program", Policy(), workers), "--rows"]
        return programs.output_of(words, self.load(load, workers, requests)).encode()

    def referee_words(self, workers: int, history: str) -> list[str]:
        return [self.built["referee"], *auction_words(workers), "--order", f"--history={history}"]

    def check(self, load: Load, workers: int, requests: int) -> tuple[float, float, Tries, Tries, Tries]:
        """How many megabytes a load and the auction's history of it are, and of tries of the referee over them: the
        seconds, those for the scripts alone, which are read before an empty history is found to lack a request, and
        the megabytes."""
        path, history, tries = (
            self.load(load, workers, requests),
            self.history(load, workers, requests),
            self.few_tries(),
        )
        words, of_scripts = self.referee_words(workers, history), self.referee_words(workers, os.devnull)
        whole = [programs.whole_of(words, path) for _ in range(tries)]
        alone = [programs.whole_of(of_scripts, path, LACKING) for _ in range(tries)]
        seconds, of_scripts_alone = (Tries.of(use.seconds for use in uses) for uses in (whole, alone))
        megabytes = Tries.of(use.megabytes for use in whole)
        return os.path.getsize(path) / 1e6, os.path.getsize(history) / 1e6, seconds, of_scripts_alone, megabytes

    def delays(self, load: Load, workers: int, requests: int, policy: Policy) -> list[int]:
        """Of each stashed request, how many others are answered between it and its reply."""
        return delays.of_history(self.history(load, workers, requests, policy), *policy.quotas)

    def instructions(self, load: Load, requests: int, policy: Policy) -> list[float]:
        """The instructions of each part for a request, with one worker: those of a load less those of its rows
        alone."""
        words, engine = self.command("program", policy, 1), instructions.crates_of_engine(programs.ROOT)
        full, rows = (
            instructions.by_parts(words, self.load(load, 1, count), engine, self.folder) for count in (requests, 0)
        )
        return [(of_full - of_rows) / requests for of_full, of_rows in zip(full, rows)]

    def work(self, mode: str, load: Load, workers: int, requests: int, policy: Policy) -> list[float]:
        """The instructions of a whole command for a request, of all threads and of the longest: those of a load less
        those of its rows alone."""
        words = self.command(mode, policy, workers)
        full, rows = (
            instructions.by_threads(words, self.load(load, workers, count), self.folder) for count in (requests, 0)
        )
        return [(of_full - of_rows) / requests for of_full, of_rows in zip(full, rows)]

    def few(self) -> int:
        """How many requests of a load the databases are given."""
        return min(self.asked.requests, 5_000 if self.asked.fast else 40_000)

    def few_tries(self) -> int:
        """How many tries what takes long has."""
        return min(self.asked.tries, FEW_TRIES)

    def lite_executing(self, load: Load, workers: int) -> tuple[int, float]:
        """How many requests SQLite performs, and in how many seconds."""
        rows, scripts = loads.read_load(self.load(load, workers, self.few()), workers)
        return self.few(), lite.perform(rows, scripts, USERS, CATEGORIES)[1] / 1e9

    def postgres_executing(self, load: Load, workers: int) -> tuple[int, float]:
        rows, scripts = loads.read_load(self.load(load, workers, self.few()), workers)
        done, rate = self.server.perform_anew(rows, scripts, USERS, CATEGORIES, self.asked.seconds)
        return done, done / rate
