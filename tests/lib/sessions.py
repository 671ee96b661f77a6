"""Sessions of a client of `--live` and `--log`: what it asks for, and an auction over several of them, each of which is
killed, held against the model as one."""

import itertools
import os
import random
import signal
import threading
import time
from contextlib import suppress
from pathlib import Path
from typing import Any, Callable, Iterable, Iterator

from client import Auction, Refused
from lib.checks import AuctionTester
from lib.model import Options, expected

SECONDS = 60
STORES = ("item", "bid", "comment", "buynow")
# What the first items are sold in, so that some purchases are refused.
ITEMS, PIECES = 8, 3
FIRST = tuple(f"item,0,0,Vase,10,1000,1,{PIECES}" for _ in range(ITEMS))
PLAIN = ("--hot", "0")
NAMES = ("Vase", '"Old, vase"', '"a ""b"""', "x y", " ")


def requests(draw: random.Random, count: int) -> Iterator[str]:
    """Requests of a worker: some 70 of 100 are stored."""
    for _ in range(count):
        item, user = f"0.{draw.randrange(ITEMS)}", draw.randrange(100)
        kind = draw.choices(("item", "bid", "comment", "buynow", "viewitem", "viewbids"), (1, 5, 2, 1, 1, 1))[0]
        yield {
            "item": f"item,{user},{draw.randrange(10)},{draw.choice(NAMES)},10,1000,1,{PIECES}",
            "bid": f"bid,{user},{item},{draw.randrange(1000)},{draw.randrange(1050)}",
            "comment": f"comment,{user},{draw.randrange(100)},{item},{draw.randrange(-5, 6)}",
            "buynow": f"buynow,{user},{item},1,{draw.randrange(1050)}",
        }.get(kind, f"{kind},{item}")


def is_stored(reply: str) -> bool:
    return reply.split()[0] in STORES


def whole_lines(log: Path) -> bytes:
    text = log.read_bytes() if log.exists() else b""
    return text[: text.rfind(b"\n") + 1]


def fault_of(program: Path, log: Path, *words: str, **how: Any) -> tuple | None:
    """The fault and status of a program with this log that has one request, or nothing if it is answered."""
    try:
        auction = Auction(program, *words, "--log", str(log), **how)
        auction.one("viewuser,0")
        auction.close()
    except Refused as refused:
        return refused.args
    return None


def told_of(log: Path, words: str, why: int | None = None) -> tuple[str, int]:
    """A fault that names a log, with the system's words for this error, and its status."""
    system = f": {os.strerror(why)} (os error {why})" if why else ""
    return f"rubis_auction: {log}: {words}{system}", 5


def in_use(log: Path) -> tuple[str, int]:
    """The fault, and its status, of a program whose log another one has."""
    return told_of(log, "in use")


def rows_of(requests: Iterable[str], workers: Iterable[int] = itertools.repeat(0)) -> bytes:
    """The rows of these requests of these workers, as a log has them."""
    rows = "".join(f"{worker},+{request}\n" for request, worker in zip(requests, workers))
    return expected(rows.encode(), Options(rows=True, workers=16)).stdout


def wait_until(holds: Callable[[], bool]) -> None:
    for _ in range(SECONDS * 100):
        if holds():
            return
        time.sleep(0.01)


class Told(Auction):
    """A client that notes what it sends and what is replied, up to the moment at which the program is no more."""

    def __init__(self, *words: str | Path, **how: Any) -> None:
        self.asked: dict[tuple[int, int], str] = {}
        self.replied: dict[tuple[int, int], str] = {}
        super().__init__(*words, **how)

    def block(self, asked: list[tuple[int, str]]) -> list[str]:
        at = self.sent.copy()
        for worker, request in asked:
            self.asked[worker, at[worker]] = request
            at[worker] += 1
        return super().block(asked)

    def reply(self) -> tuple[tuple[int, int], str]:
        place, text = super().reply()
        self.replied[place] = text
        return place, text


class Era:
    """An auction over several sessions, each of which is killed. What is small enough is held against the model."""

    MOST_OF_THE_MODEL = 250

    def __init__(self, tester: AuctionTester, draw: random.Random) -> None:
        self.tester, self.draw = tester, draw
        self.log = tester.folder / "killed"
        self.log.unlink(missing_ok=True)
        self.workers = draw.choice((1, 1, 3))
        self.is_small = self.workers == 1
        # Of one worker what was performed, with the replies that came; of each worker the requests
        # of the rows that replies told.
        self.performed: list[tuple[str, str | None]] = []
        self.stored: dict[str, str] = {}

    def is_over(self) -> bool:
        return len(self.performed) > self.MOST_OF_THE_MODEL or len(self.stored) > 10_000

    def session(self, number: int) -> None:
        draw = self.draw
        before = whole_lines(self.log).count(b"\n")
        auction = Told(
            self.tester.program,
            *PLAIN,
            f"--workers={self.workers}",
            "--log",
            str(self.log),
            most=draw.choice((1, 10, 1000)),
        )
        timer = threading.Timer(draw.random() * (0.05 if self.is_small else 0.2), auction.process.kill)
        timer.start()
        with suppress(Refused):
            if not before:
                auction.many([(0, row) for row in FIRST])
            while True:
                count = draw.choice((1, 5, 20)) if self.is_small else draw.choice((20, 300, 3000))
                auction.many([(draw.randrange(self.workers), request) for request in requests(draw, count)])
        timer.join()
        auction.process.wait()
        for stream in (auction.process.stdin, auction.process.stdout, auction.process.stderr):
            with suppress(BrokenPipeError):
                stream.close()
        what = f"kill {number}, of {self.workers} workers"
        self.tester.tally.check(
            auction.process.returncode == -signal.SIGKILL, f"{what}: status {auction.process.returncode}"
        )
        self.nothing_lost(what, auction)
        if self.is_small:
            self.as_model(what, auction)

    def nothing_lost(self, what: str, auction: Told) -> None:
        """Each row that a reply told is in the log, as it was asked for."""
        for place, text in auction.replied.items():
            if is_stored(text):
                self.stored[text] = auction.asked[place]
        kept, counts = {}, {}
        for line in whole_lines(self.log).decode().splitlines():
            worker, kind, fields = line.split(",", 2)
            serial = counts[worker, kind] = counts.get((worker, kind), -1) + 1
            kept[f"{kind[1:]} {worker}.{serial}"] = f"{kind[1:]},{fields}"
        lost = [
            (told, asked)
            for told, asked in self.stored.items()
            if asked.replace('"', "") != kept.get(told, "").replace('"', "")
        ]
        self.tester.tally.check(not lost, f"{what}: {len(lost)} of {len(self.stored)} rows lost, {lost[:3]}")

    def as_model(self, what: str, auction: Told) -> None:
        """All sessions so far are one auction of the model: its replies, and its rows."""
        asked = [(auction.asked[place], auction.replied.get(place)) for place in sorted(auction.asked)]
        sure = len(self.performed) + len(auction.replied)
        records = [f"0,{request}\n" for request, _ in (*self.performed, *asked)]
        replies = [
            line.split(",", 2)[2]
            for line in expected("".join(records).encode(), Options(hot=0)).stdout.decode().splitlines()
        ]
        rows, done, count = whole_lines(self.log).count(b"\n"), 0, 0
        # What was performed last and not answered is known by its rows.
        while done < sure or count < rows and done < len(replies):
            count += is_stored(replies[done])
            done += 1
        self.performed = [*self.performed, *asked][:done]
        wrong = [(one, due) for one, due in zip(self.performed, replies) if one[1] not in (None, due)]
        self.tester.tally.check(
            not wrong, f"{what}: {len(self.performed)} requests, replies that are not the model's: {wrong[:3]}"
        )
        model = expected("".join(records[:done]).encode(), Options(hot=0, rows=True)).stdout
        self.tester.tally.check(whole_lines(self.log) == model, f"{what}: the log is the model's {count} rows")
