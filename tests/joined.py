#!/usr/bin/env python3
"""Shows that the logs of several processes, joined by `cat`, are the log of one auction, if each process
has its own workers and items.

    tests/joined.py [PROGRAM [CHECKER]]

A load is dealt to four processes: each performs the requests on the items of four workers, as these workers. Their
rows, joined, open an auction with the same rows, byte for byte. Joined in another order they open one with the same
categories, users and items, and so do the rows of one process that performs all. The referee accepts their joined
histories but for views of categories and users, of which each process knows only its own part; there it names the line.
"""

import random
import re
from collections import Counter
from concurrent.futures import ThreadPoolExecutor
from dataclasses import replace
from pathlib import Path
from tempfile import TemporaryDirectory
from typing import Iterable, NamedTuple

from lib.load_model import Plan, load_of
from lib.model import Outcome
from lib.program import Tally, described, run, two_programs

PROCESSES, WORKERS = 4, 16
EACH = WORKERS // PROCESSES
LOAD = Plan(requests=40_000, workers=WORKERS, items=64, skew=100, views=40, comments=10, purchases=5, new_items=5)
# Which field of a request names an item.
ITEM_FIELD = {"bid": 1, "comment": 2, "buynow": 1, "viewitem": 0, "viewbids": 0}
# What no process can answer for all.
OF_ALL = ("viewcategory", "viewuser")
ACCEPTED = Outcome(0, b"the history replays\n", b"")
PART = re.compile(rb"line [0-9]+: [0-9]+,[0-9]+ ((latest|user)\b.*) but (\2\b.*) was due\n")


class Share(NamedTuple):
    """What a process is given, and the rows and the history that it leaves."""

    given: list[str]
    rows: bytes
    history: list[str]


def dealt(load: bytes) -> list[list[str]]:
    """The records for each process: that of its item's worker has a request, for one of its own workers."""
    given: list[list[str]] = [[] for _ in range(PROCESSES)]
    for line in load.decode().splitlines():
        worker, kind, *fields = line.split(",")
        owner = fields[ITEM_FIELD[kind]].split(".")[0] if kind in ITEM_FIELD else worker
        process = int(owner) // EACH
        given[process].append(",".join((str(process * EACH + int(worker) % EACH), kind, *fields)))
    return given


def joined(given: Iterable[list[str]]) -> list[str]:
    """The records of several processes, rows first."""
    records = [record for records in given for record in records]
    return sorted(records, key=lambda record: ",+" not in record)


def text_of(lines: Iterable[str]) -> bytes:
    return "".join(f"{line}\n" for line in lines).encode()


class Trial:
    def __init__(self, program: Path, checker: Path, folder: Path, tally: Tally) -> None:
        self.program, self.checker, self.folder, self.tally = program, checker, folder, tally

    def perform(self, process: int, given: list[str]) -> Share:
        log = self.folder / f"rows.{process}"
        got = self.auction(text_of(given), "--history", "--log", log)
        self.tally.check((got.status, got.stderr) == (0, b""), f"process {process}: {described(got)}")
        return Share(given, log.read_bytes(), got.stdout.decode().splitlines())

    def auction(self, data: bytes, *words: str | Path) -> Outcome:
        return run([self.program, "--workers", str(WORKERS), "--shards", "64", "--split", "4096", *words], data)

    def verdict(self, records: list[str], history: list[str]) -> Outcome:
        file = self.folder / "history"
        file.write_bytes(text_of(history))
        return run([self.checker, "--workers", str(WORKERS), "--order", "--history", file], text_of(records))

    def closing(self, rows: bytes, views: bytes) -> bytes:
        """Views of all items, and a report of all categories and users, of the auction that these rows open."""
        got = self.auction(rows + views, "--report")
        self.tally.check((got.status, got.stderr) == (0, b""), f"joined rows: {described(got)}")
        return got.stdout


def joined_rows(trial: Trial, shares: list[Share]) -> None:
    """rows of four processes, which are one auction, in any order, as a log, and as if one process had performed all"""
    rows = [share.rows for share in shares]
    whole = b"".join(rows)
    trial.tally.check(all(rows), "each process has rows")
    trial.tally.same("the rows", trial.auction(whole, "--rows"), Outcome(0, whole, b""))
    views = views_of_items(whole)
    wanted = trial.closing(whole, views)
    for order in ((3, 2, 1, 0), (2, 0, 3, 1)):
        trial.tally.check(
            trial.closing(b"".join(rows[process] for process in order), views) == wanted, f"rows in the order {order}"
        )
    of_one = trial.auction(text_of(joined(share.given for share in shares)), "--rows").stdout
    trial.tally.check(
        len(of_one.splitlines()) == len(whole.splitlines()) and trial.closing(of_one, views) == wanted,
        "rows of one process",
    )
    log = trial.folder / "joined"
    log.write_bytes(whole)
    trial.tally.same(
        "the rows as a log", trial.auction(views, "--log", log), Outcome(0, wanted[: wanted.index(b"phases ")], b"")
    )


def views_of_items(rows: bytes) -> bytes:
    owners = Counter(line.split(b",")[0].decode() for line in rows.splitlines() if b",+item," in line)
    return text_of(
        f"0,{kind},{worker}.{serial}"
        for worker, count in owners.items()
        for serial in range(count)
        for kind in ("viewitem", "viewbids")
    )


def joined_histories(trial: Trial, shares: list[Share]) -> None:
    """histories of four processes: each, all together, and all without views of categories and users"""
    for process, share in enumerate(shares):
        trial.tally.same(f"the history of process {process}", trial.verdict(share.given, share.history), ACCEPTED)
    records = joined(share.given for share in shares)
    history = [line for share in shares for line in share.history]
    got = trial.verdict(records, history)
    trial.tally.check(got.status == 5 and PART.fullmatch(got.stdout) is not None, f"all together: {described(got)}")
    kept_records, kept_history = without_views_of_all(records, history)
    trial.tally.check(
        len(records) // 2 < len(kept_history) < len(history),
        f"{len(kept_history)} requests without views of categories and users",
    )
    trial.tally.same("without views of categories and users", trial.verdict(kept_records, kept_history), ACCEPTED)


def without_views_of_all(records: list[str], history: list[str]) -> tuple[list[str], list[str]]:
    """Records and history without views of categories and users, and with the indexes that
    the other requests then have."""
    places: dict[tuple[str, int], int] = {}
    asked, kept = Counter(), Counter()
    for worker, kind in (record.split(",", 2)[:2] for record in records if ",+" not in record):
        if kind not in OF_ALL:
            places[worker, asked[worker]] = kept[worker]
            kept[worker] += 1
        asked[worker] += 1
    lines = (line.split(" ", 4) for line in history)
    moved = [
        (phase, number, worker, places.get((worker, int(index))), reply)
        for phase, number, worker, index, reply in lines
    ]
    rest = [record for record in records if record.split(",", 2)[1] not in OF_ALL]
    return rest, [" ".join(map(str, line)) for line in moved if line[3] is not None]


def main() -> None:
    program, checker = two_programs(__doc__)
    tally = Tally()
    seed = random.randrange(1 << 32)
    print(f"seed {seed}", flush=True)
    with TemporaryDirectory() as folder, ThreadPoolExecutor(PROCESSES) as threads:
        trial = Trial(program, checker, Path(folder), tally)
        given = dealt(load_of(replace(LOAD, seed=seed)))
        shares = list(threads.map(trial.perform, range(PROCESSES), given))
        for check in (joined_rows, joined_histories):
            tally.tell(check, trial, shares)
    tally.finish()


if __name__ == "__main__":
    main()
