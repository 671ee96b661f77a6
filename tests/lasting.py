#!/usr/bin/env python3
"""Shows that an auction with `--live` or `--log` lasts, as docs/FORMATS.md and docs/SERVING.md say: it outlives a
worker's millionth row, and it starts in little memory, however many rows it has.

    tests/lasting.py [PROGRAM]
"""

from contextlib import contextmanager
from pathlib import Path
from typing import Any, Iterator

from lib.checks import MILLION, AuctionTester, main
from lib.model import Outcome
from lib.program import described, in_little_memory, run
from lib.sessions import Auction, Refused

ITEM = b'0,+item,0,0,"Vase",10,1000,1,3\n'
# A row that needs no memory of its own: its stars are added up.
ROW = b"0,+comment,1,2,0.0,1\n"
MANY = 2 * MILLION
SEEN = f"user rating={MANY} comments={MANY}"


def written(path: Path, *parts: bytes) -> Path:
    with path.open("wb") as file:
        file.writelines(parts)
    return path


# The millionth row.


def passes_a_million(tester: AuctionTester) -> None:
    """a worker's millionth row: the requests before and behind it are answered, one by one and many at
    once, and a later start goes on"""
    log = tester.folder / "million"
    before = MILLION - 10
    for most, at_a_time in ((1, 1), (1000, 30)):
        written(log, ITEM, ROW * (before - 1))
        with session(tester, log, most=most) as auction:
            told = [
                reply for _ in range(30 // at_a_time) for reply in auction.many([(0, "comment,3,4,0.0,1")] * at_a_time)
            ]
            tester.tally.check(
                told == [f"comment 0.{before - 1 + at}" for at in range(30)],
                f"30 comments around the millionth row, --live {most}: {told[:3]}",
            )
            views = auction.many([(0, "viewuser,4"), (1, "viewuser,4")] * 1000)
            tester.tally.check(
                set(views) == {"user rating=30 comments=30"},
                f"views behind the millionth row, --live {most}: {set(views)}",
            )
            tester.tally.check(auction.one("comment,3,5,0.0,1", worker=1) == "comment 1.0", "another worker")
        with session(tester, log) as auction:
            told = auction.many(
                [(0, "viewuser,4"), (0, "comment,3,4,0.0,1"), (0, "viewuser,4"), (0, "item,0,0,Vase,10,1000,1")]
            )
            wanted = [
                "user rating=30 comments=30",
                f"comment 0.{before + 30 - 1}",
                "user rating=31 comments=31",
                "item 0.1",
            ]
            tester.tally.check(told == wanted, f"a later start: {told}")


@contextmanager
def session(tester: AuctionTester, log: Path, **how: Any) -> Iterator[Auction]:
    """A session of two workers on a log, which is not to end before it is closed."""
    auction = Auction(tester.program, "--workers=2", "--log", str(log), **how)
    try:
        yield auction
        auction.close()
    except Refused as refused:
        tester.tally.check(False, f"a session ended: {refused}")


def without_parts(tester: AuctionTester) -> None:
    """a run without parts has a million rows and requests of a worker, and no more"""
    rows = written(tester.folder / "rows", ITEM, ROW * MILLION)
    with rows.open("rb") as given:
        got = run([tester.program], given)
    tester.tally.check(
        (got.status, got.stderr) == (3, b"rubis_auction: more than 1000000 requests for a worker\n"),
        f"without parts: {described(got)}",
    )


# Starts.


def flat_logs(tester: AuctionTester) -> None:
    """a log of 2,000,000 rows of a worker in little memory, with parts of any length"""
    log = written(tester.folder / "long", ITEM, ROW * MANY)
    for words in (["--live", "1"], ["--live", "1000"], []):
        got = run(
            [tester.program, *words, "--log", log], b"0,viewuser,2\n0,comment,1,3,0.0,1\n", preexec_fn=in_little_memory
        )
        tester.tally.check(
            got.stdout.decode() == f"0,0,{SEEN}\n0,1,comment 0.{MANY}\n" and got.status == 0,
            f"a long log, {words}: {described(got)}",
        )
        tester.tally.check(log.stat().st_size == len(ITEM) + len(ROW) * (MANY + 1), f"one row more, {words}")
        with log.open("r+b") as file:
            file.truncate(len(ITEM) + len(ROW) * MANY)


def flat_rows(tester: AuctionTester) -> None:
    """2,000,000 rows of a worker on standard input in little memory, which a log gets, and
    which are printed with --rows"""
    rows, log = written(tester.folder / "given", ITEM, ROW * MANY, b"0,viewuser,2\n"), tester.folder / "got"
    for words in (
        ["--live", "1"],
        ["--live", "1000"],
        ["--live", "10", "--faults", "end"],
        ["--live", "10", "--log", log],
        ["--log", log],
    ):
        log.unlink(missing_ok=True)
        with rows.open("rb") as given:
            got = run([tester.program, *words], given, preexec_fn=in_little_memory)
        tester.tally.check(
            (got.status, got.stdout.decode()) == (0, f"0,0,{SEEN}\n"), f"many rows, {words}: {described(got)}"
        )
        tester.tally.check(log not in words or has_rows(log), f"many rows are logged, {words}")
    with rows.open("rb") as given, tester.output.open("wb") as printed:
        got = run([tester.program, "--rows", "--live", "10"], given, stdout=printed, preexec_fn=in_little_memory)
    tester.tally.check(got.status == 0 and has_rows(tester.output), f"many rows are printed: {described(got)}")


def printed_logs(tester: AuctionTester) -> None:
    """a log of 2,000,000 rows is printed with --rows, in little memory"""
    log = written(tester.folder / "printed", ITEM, ROW * MANY)
    for words in (["--live", "10"], []):
        with tester.output.open("wb") as printed:
            got = run(
                [tester.program, "--rows", *words, "--log", log], b"", stdout=printed, preexec_fn=in_little_memory
            )
        tester.tally.check(
            got.status == 0 and has_rows(tester.output), f"a log that is printed, {words}: {described(got)}"
        )


def has_rows(path: Path) -> bool:
    """Whether a file has the item and the many rows."""
    with path.open("rb") as file:
        return (
            file.readline() == ITEM
            and all(line == ROW for line in file)
            and path.stat().st_size == len(ITEM) + len(ROW) * MANY
        )


def late_faults(tester: AuctionTester) -> None:
    """a row that is refused, and a line that is no row, behind many: a fault with its number, and the log is as it was;
    on standard input the rows before it are logged"""
    log = tester.folder / "late"
    for line, words in (
        (b"0,+bid,1,0.7,20,5\n", f"row {MANY + 2}: refused 3 NoSuchItem"),
        (b"0,+bid,1,0.0,x,5\n", f"record {MANY + 2}: not a number"),
        (b"0,+bid,1,0.0,20,5\r\n", f"line {MANY + 2}: not as rows are written"),
        (b"3,+bid,1,0.0,20,5\n", f"record {MANY + 2}: no such worker"),
        (b"0,+bid,1,0.0,20,5", None),
    ):
        size = written(log, ITEM, ROW * MANY, line).stat().st_size
        got = run([tester.program, "--live", "10", "--log", log], b"0,viewuser,2\n", preexec_fn=in_little_memory)
        if words is None:
            tester.tally.check(
                got.status == 0 and log.stat().st_size == size - len(line),
                f"a cut row behind many rows: {described(got)}",
            )
        else:
            is_told = (got.status, got.stderr.decode()) == (5, f"rubis_auction: {log}: {words}\n")
            tester.tally.check(is_told and log.stat().st_size == size, f"{words}: {described(got)}")


def late_lines(tester: AuctionTester) -> None:
    """a line with a fault between many rows on standard input is answered, and a row that is refused behind them ends
    the program; what was logged is a log"""
    log, given = tester.folder / "lines", tester.folder / "given"
    few = 70_000
    written(given, ITEM, ROW * few, b"0,bid\n", ROW * few, b"0,viewuser,2\n")
    with given.open("rb") as lines:
        got = run([tester.program, "--live", "10", "--log", log], lines)
    wanted = f"0,0,fault record {few + 2}: wrong number of fields\n0,0,user rating={2 * few} comments={2 * few}\n"
    tester.tally.check(
        (got.status, got.stdout.decode()) == (0, wanted), f"a line with a fault between many rows: {described(got)}"
    )
    tester.tally.check(
        log.read_bytes() == ITEM + ROW * 2 * few, "the log of many rows, and a line with a fault between them"
    )
    for words in (["--live", "10"], ["--live", "10", "--faults", "end"], []):
        log.unlink()
        written(given, ITEM, ROW * 2 * few, b"0,+bid,1,0.7,20,5\n0,viewuser,2\n")
        with given.open("rb") as lines:
            got = run([tester.program, *words, "--log", log], lines)
        wanted = Outcome(3, b"", f"rubis_auction: row {2 * few + 2}: refused 3 NoSuchItem\n".encode())
        tester.tally.check(got == wanted, f"a row that is refused behind many, {words}: {described(got)}")
        tester.tally.check(
            (ITEM + ROW * 2 * few).startswith(log.read_bytes()) and log.read_bytes().endswith(ROW),
            f"rows before a refused one are logged, {words}",
        )
        again = run([tester.program, "--log", log], b"0,viewuser,2\n")
        logged = log.read_bytes().count(b"\n") - 1
        tester.tally.check(
            again.stdout.decode() == f"0,0,user rating={logged} comments={logged}\n",
            f"a start behind a refused row, {words}: {described(again)}",
        )


def memory_of_starts(tester: AuctionTester) -> None:
    """what the program has held at most, after 20,000 rows of a log and after 2,000,000"""
    held = []
    for rows in (20_000, MANY):
        with session(tester, written(tester.folder / f"of-{rows}", ITEM, ROW * rows)) as auction:
            auction.one("viewuser,2")
            lines = dict(
                line.split(":", 1) for line in Path(f"/proc/{auction.process.pid}/status").read_text().splitlines()
            )
            held.append(int(lines["VmHWM"].split()[0]))
    tester.tally.check(len(held) == 2 and held[1] < held[0] + 4096, f"KiB held after few rows and after many: {held}")


CHECKS = (
    passes_a_million,
    without_parts,
    flat_logs,
    flat_rows,
    printed_logs,
    late_faults,
    late_lines,
    memory_of_starts,
)

if __name__ == "__main__":
    main(__doc__, CHECKS)
