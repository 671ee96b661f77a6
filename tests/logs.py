#!/usr/bin/env python3
"""Shows what the log of `--log` keeps, as docs/FORMATS.md and docs/SERVING.md say: a log that is locked, forbidden,
cut, changed, moved, or none; writes, syncs and cuts of it that fail, full disks and no memory, after which nothing
answered is lost; and a start right after a kill. What is said of any log is shown of the example of a ledger too.

    tests/logs.py [PROGRAM [LEDGER]] [--only CHECK]
"""

import errno
import itertools
import os
import random
import re
import resource
import shutil
import subprocess
from argparse import Namespace
from contextlib import suppress
from dataclasses import dataclass
from functools import partial
from pathlib import Path
from typing import Any, Iterable

from lib.checks import AuctionTester, make_all, with_shim
from lib.model import Options, Outcome, expected
from lib.program import (
    BUILT,
    NOBODY,
    Tally,
    become_nobody,
    build_shim,
    built,
    described,
    executable,
    parser_of,
    run,
)
from lib.refusing import UNREACHED_IN_A_ROW, Refusing
from lib.sessions import (
    FIRST,
    PLAIN,
    Auction,
    Refused,
    fault_of,
    in_use,
    is_stored,
    requests,
    rows_of,
    told_of,
    wait_until,
    whole_lines,
)

# Rows that are refused behind those of `FIRST`, and how this is told.
REFUSED_ROWS = (
    ("0,+bid,100,0.0,500,3", "row 9: refused 1 NoSuchUser"),
    ('0,+item,0,10,"Vase",10,1000,1,3', "row 9: refused 2 NoSuchCategory"),
    ("0,+bid,1,0.99,500,3", "row 9: refused 3 NoSuchItem"),
    ("0,+bid,1,0.0,9,3", "row 9: refused 4 BelowStart"),
    ("0,+bid,1,0.0,500,1000", "row 9: refused 5 Closed"),
    ("0,+buynow,1,0.0,3,5\n0,+bid,1,0.0,500,6", "row 10: refused 6 SoldOut"),
    ("0,+buynow,1,0.0,4,5", "row 9: refused 7 NotEnough"),
)
SEEN = "user rating=0 comments=0"
UNREAD, UNWRITTEN, UNSYNCED, UNCUT = "cannot be read", "cannot be written", "cannot be synced", "cannot be cut back"
CHANGED = "changed, moved or removed by another program"


# Any log.


@dataclass(frozen=True)
class Logged:
    """A program that has a log: its command but for the log's name, a log's lines, the beginning of another line, a
    request and the line that it adds, and the status where the log is refused."""

    name: str
    command: tuple[str | Path, ...]
    lines: bytes
    cut: bytes
    asked: bytes
    added: bytes
    refused: int

    def run(self, log: Path, asked: bytes | None = None, **how: Any) -> Outcome:
        return run([*self.command, log], self.asked if asked is None else asked, **how)

    def redirected(self, log: Path, words: str) -> Outcome:
        """A run of a shell that redirects its streams."""
        return run(["sh", "-c", f'exec "$@" {words}', "sh", *self.command, log], self.asked)

    def told(self, log: Path, words: str) -> bytes:
        return f"{self.name}: {log}: {words}\n".encode()


class LogTester(AuctionTester):
    """Has the example of a ledger too."""

    def __init__(self, asked: Namespace, folder: Path, tally: Tally) -> None:
        super().__init__(asked, folder, tally)
        auction = (asked.program, "--live", "1", "--log")
        bid = b"bid,1,0.0,20,5\n"
        self.ledger = Logged(
            "example_ledger", (asked.ledger,), b"add 0 5\ntake 0 2\n", b"add 1 ", b"add 1 3\n", b"add 1 3\n", 1
        )
        self.logged = (
            Logged("rubis_auction", auction, rows_of(FIRST), b"0,+bi", b"0," + bid, b"0,+" + bid, 5),
            self.ledger,
        )


def own_streams(tester: LogTester) -> None:
    """a log that is the program's own standard input, output or error, under each of its names: a fault, which is told
    if it can be, and the log is as it was"""
    for one in tester.logged:
        log = tester.folder / f"{one.name}-stream"
        link, other = log.with_name(f"{one.name}-link"), log.with_name(f"{one.name}-name")
        log.write_bytes(one.lines)
        link.symlink_to(log)
        other.hardlink_to(log)
        for name, (words, why) in itertools.product(
            (log, link, other),
            (
                (f"< {log}", "is the input"),
                (f"<> {log}", "is the input"),
                (f">> {log}", "is the output"),
                (f"2>> {log}", None),
            ),
        ):
            got = one.redirected(name, words)
            told = one.told(name, why) if why else b""
            tester.tally.check(
                got == Outcome(one.refused, b"", told) and log.read_bytes() == one.lines,
                f"{one.name} {name.name} {words}: {described(got)}, {len(log.read_bytes())} bytes",
            )
            log.write_bytes(one.lines)


def closed_streams(tester: LogTester) -> None:
    """standard input, output or error closed: the log has no more than what was asked for, and the next start accepts
    it"""
    for one in tester.logged:
        log = tester.folder / f"{one.name}-closed"
        for closed in ("<&-", ">&-", "2>&-", "<&- >&-", ">&- 2>&-", "<&- >&- 2>&-"):
            for end in (b"", one.cut):
                log.write_bytes(one.lines + end)
                got = one.redirected(log, closed)
                left = log.read_bytes()
                tester.tally.check(
                    left in (one.lines, one.lines + one.added) and one.run(log).status == 0,
                    f"{one.name} with {closed}: {described(got)}, {left[len(one.lines):]!r}",
                )


def foreign_ends(tester: LogTester) -> None:
    """a file that is no log, and a log with an end that no crash leaves: refused, and each byte is as it was; a line
    that was being written is kept beside it"""
    for one in tester.logged:
        log = tester.folder / f"{one.name}-foreign"
        kept = log.with_name(f"{log.name}.cut")
        for before, end in itertools.product(
            (b"", one.lines),
            (b'{"accounts": [1, 2, 3]}', b"Dear Sir", one.cut + bytes(3), one.cut + b"\x1b[2J", one.cut + b"9" * 300),
        ):
            log.write_bytes(before + end)
            got = one.run(log)
            tester.tally.check(
                (got.status, got.stdout) == (one.refused, b"")
                and got.stderr.startswith(one.told(log, "line")[:-1])
                and log.read_bytes() == before + end
                and not kept.exists(),
                f"{one.name}, {(before + end)[-40:]!r} as a log: {described(got)}",
            )
        for size in range(1, len(one.cut) + 1):
            log.write_bytes(one.lines + one.cut[:size])
            got = one.run(log, b"")
            tester.tally.check(
                got.status == 0 and log.read_bytes() == one.lines and kept.read_bytes() == one.cut[:size] + b"\n",
                f"{one.name}, a line cut at byte {size}: {described(got)}",
            )
            kept.unlink(missing_ok=True)


def cuts_that_lead_elsewhere(tester: LogTester) -> None:
    """a file for what is cut off that is a link, a pipe or the log itself: a fault, and nothing is written"""
    other = tester.folder / "elsewhere"
    for one in tester.logged:
        log = tester.folder / f"{one.name}-cut"
        kept, nothing = log.with_name(f"{log.name}.cut"), log.with_name(f"{log.name}.nothing")
        for what, make, words in (
            ("a link", lambda: kept.symlink_to(other), "not a regular file"),
            ("a link to nothing", lambda: kept.symlink_to(nothing), "not a regular file"),
            ("a link to the log", lambda: kept.symlink_to(log), "not a regular file"),
            ("a pipe", lambda: os.mkfifo(kept), "not a regular file"),
            ("another name of the log", lambda: kept.hardlink_to(log), "it is the log"),
        ):
            log.write_bytes(one.lines + one.cut)
            other.write_bytes(b"mine\n")
            make()
            got = one.run(log)
            tester.tally.check(
                got == Outcome(one.refused, b"", one.told(log, f"cut bytes cannot be kept: {words}"))
                and log.read_bytes() == one.lines + one.cut
                and other.read_bytes() == b"mine\n"
                and not nothing.exists(),
                f"{one.name}, {what} for what is cut off: {described(got)}",
            )
            kept.unlink()


def special_ledgers(tester: LogTester) -> None:
    """a ledger whose log is a device, a folder, locked or without locks: a fault that names it; its folder has no file
    but the log"""
    one, folder = tester.ledger, tester.folder / "ledger"
    folder.mkdir()
    log = folder / "log"
    for path, words in (
        (Path("/dev/zero"), "not a regular file"),
        (folder, "cannot be read: Is a directory (os error 21)"),
    ):
        got = one.run(path)
        tester.tally.check(got == Outcome(1, b"", one.told(path, words)), f"{path} as a ledger: {described(got)}")
    with subprocess.Popen([*one.command, log], stdin=subprocess.PIPE, stdout=subprocess.PIPE) as first:
        first.stdout.readline()
        got = one.run(log)
        tester.tally.check(got == Outcome(1, b"", one.told(log, "in use")), f"a ledger in use: {described(got)}")
        first.communicate(one.asked)
    tester.tally.check(log.read_bytes() == one.added, "the first ledger goes on")
    if tester.shim is not None:
        got = one.run(log, env=os.environ | {"LD_PRELOAD": str(tester.shim), "LOCK_FAILS": "1"})
        told = one.told(log, f"cannot be locked: {os.strerror(errno.ENOLCK)} (os error {errno.ENOLCK})")
        tester.tally.check(got == Outcome(1, b"", told), f"a ledger without locks: {described(got)}")
    mine = folder / "ledger.log"
    mine.write_bytes(b"mine")
    got = one.run(log, b"", cwd=folder)
    tester.tally.check(
        got.status == 0 and mine.read_bytes() == b"mine" and sorted(folder.iterdir()) == sorted((mine, log)),
        f"a file of mine beside a ledger: {described(got)}, {sorted(folder.iterdir())}",
    )


@with_shim
def unsynced_folders(tester: LogTester) -> None:
    """a folder whose names the disk does not keep: a fault before anything is answered, and the log stays empty"""
    for one in tester.logged:
        log = tester.folder / f"{one.name}-unsynced"
        got = one.run(log, env=tester.limited({"FSYNC_FAILS": 1}))
        told = one.told(log, f"{UNREAD}: {os.strerror(errno.EIO)} (os error {errno.EIO})")
        tester.tally.check(
            got == Outcome(one.refused, b"", told) and log.read_bytes() == b"",
            f"{one.name} in a folder that is not synced: {described(got)}",
        )


# How it is opened.


def locked_log(tester: AuctionTester) -> None:
    """a log that another program has"""
    log = tester.folder / "locked"
    first = Auction(tester.program, "--log", str(log))
    first.one(FIRST[0])
    before = log.read_bytes()
    tester.tally.check(fault_of(tester.program, log) == in_use(log), "a second program on a log")
    tester.tally.check(first.one(FIRST[0]) == "item 0.1" and log.read_bytes().startswith(before), "the first goes on")
    first.close()
    tester.tally.check(fault_of(tester.program, log) is None, "a program on a log that is free again")


@with_shim
def without_locks(tester: AuctionTester) -> None:
    """a log where the file system has no locks: a fault that says so, and the log is as it was"""
    log = tester.folder / "unlocked"
    log.write_bytes(rows_of(FIRST) + b"0,+bi")
    text = log.read_bytes()
    refused = fault_of(tester.program, log, env=os.environ | {"LD_PRELOAD": str(tester.shim), "LOCK_FAILS": "1"})
    tester.tally.check(
        refused == told_of(log, "cannot be locked", errno.ENOLCK) and log.read_bytes() == text,
        f"a log without locks: {refused}",
    )


def forbidden_logs(tester: AuctionTester) -> None:
    """a log, also by a link, that this user may not read or write, or whose own folder he may not read: a fault, and
    the log is as it was; a folder that he may only read"""
    program = shutil.copy(tester.program, tester.folder / "program")
    folder, rows = tester.folder / "forbidden", rows_of(FIRST)
    log, link, hidden = folder / "log", tester.folder / "linked", tester.folder / "hidden"
    folder.mkdir()
    hidden.mkdir()
    log.write_bytes(rows)
    for place in (link, hidden / "link"):
        place.symlink_to(log)
    if os.geteuid() == 0:
        tester.folder.chmod(0o755)
        for path in (folder, hidden, log):
            os.chown(path, NOBODY, NOBODY)
    for of_folder, of_log, is_refused in (
        (0o700, 0o200, True),
        (0o700, 0o400, True),
        (0o300, 0o600, True),
        (0o500, 0o600, False),
    ):
        for path in (log, link):
            log.chmod(of_log)
            folder.chmod(of_folder)
            refused = fault_of(program, path, preexec_fn=become_nobody)
            folder.chmod(0o700)
            log.chmod(0o600)
            wanted = told_of(path, UNREAD, errno.EACCES) if is_refused else None
            tester.tally.check(
                refused == wanted and log.read_bytes() == rows,
                f"{path.name} with mode {of_log:o} in a folder with mode {of_folder:o}: {refused}",
            )
    hidden.chmod(0o300)
    refused = fault_of(program, hidden / "link", preexec_fn=become_nobody)
    hidden.chmod(0o700)
    tester.tally.check(refused is None, f"a link in a folder that he may not read: {refused}")


def append_only_logs(tester: AuctionTester) -> None:
    """a log that can be added to but not cut (`chattr +a`), with a cut row and without: a
    fault, and the log is as it was"""
    log = tester.folder / "append-only"
    for tail in (b"", b"0,+bi"):
        text = rows_of(FIRST) + tail
        log.write_bytes(text)
        if shutil.which("chattr") is None or run(["chattr", "+a", log]).status != 0:
            return tester.tally.skip(append_only_logs.__doc__, "no such file can be made here")
        try:
            refused = fault_of(tester.program, log)
        finally:
            run(["chattr", "-a", log])
        tester.tally.check(
            refused == told_of(log, UNWRITTEN, errno.EPERM) and log.read_bytes() == text,
            f"a log that can only be added to, with {tail!r} behind its rows: {refused}",
        )


def cut_logs(tester: AuctionTester) -> None:
    """a log that is cut at each byte of its last part: its whole lines are read, and the rest is cut
    off, kept beside it and told"""
    log, kept_off = tester.folder / "cut", tester.folder / "cut.cut"
    auction = Auction(tester.program, "--log", str(log), *PLAIN)
    auction.many([(0, request) for request in (*FIRST, *requests(random.Random(3), 100))])
    before = log.stat().st_size
    auction.many([(0, 'item,0,0,"Last, vase",10,100,1'), (0, "bid,1,0.0,500,3"), (0, "comment,1,2,0.0,-5")])
    auction.close()
    whole, all_kept_off = log.read_bytes(), b""
    for size in range(before, len(whole) + 1):
        log.write_bytes(whole[:size])
        kept = whole_lines(log)
        got = run([tester.program, "--log", log], b"0,viewuser,99\n")
        words, tail = b"", whole[len(kept) : size]
        if tail:
            words = f"rubis_auction: {len(tail)} bytes of a cut line taken off the log, kept in {kept_off}\n".encode()
            all_kept_off += tail + b"\n"
        tester.tally.check(
            (got.status, got.stderr) == (0, words) and log.read_bytes() == kept,
            f"a log cut at byte {size}: {described(got)}",
        )
    tester.tally.check(kept_off.read_bytes() == all_kept_off, "what was cut off is kept, a line for each cut")


def foreign_files(tester: AuctionTester) -> None:
    """a file that is no log, and a log with an end that no crash leaves: a fault that names file and
    line, and each byte is as it was"""
    file, rows = tester.folder / "foreign", rows_of(FIRST)
    last, tail, long = rows.count(b"\n"), "no line end, and not the beginning of a row", "longer than a row"
    other = "not as rows are written"
    for text, line, words in (
        (b'{"accounts": [1, 2, 3]}', 1, tail),
        (b"Dear Sir,\r\nI write to", 1, None),
        (rows.replace(b"\n", b"\r"), 1, long),
        (rows.replace(b"\n", b"\r\n"), 1, other),
        (rows + bytes(5000), last + 1, long),
        (rows + bytes(100), last + 1, tail),
        (rows + b"0,+bid,1,0.0,5" + bytes(2), last + 1, tail),
        (rows + b"0,+" + b"9" * 187, last + 1, long),
        (rows + b"0,bid,1,0.0,5", last + 1, tail),
        (rows + b"\n", last + 1, other),
        (rows + b"0,viewuser,0\n", last + 1, other),
        (b"0,+item,0,0,Vase,10,100,1,1\n", 1, other),
        (random.Random(5).randbytes(2995).replace(b"\n", b" "), 1, long),
    ):
        file.write_bytes(text)
        refused = fault_of(tester.program, file)
        right = (
            refused is not None
            and refused[1] == 5
            and (words is None or refused[0] == f"rubis_auction: {file}: line {line}: {words}")
        )
        garbage = run([tester.program, "--log", file], b"garbage\n")
        right = right and (garbage.status, garbage.stdout) == (5, b"")
        tester.tally.check(
            right and file.read_bytes() == text and not file.with_name("foreign.cut").exists(),
            f"{text[:40]!r} as a log: {refused}, {described(garbage)}",
        )


def repaired_logs(tester: AuctionTester) -> None:
    """a log with NUL bytes at its end, in its last row or before more lines: refused, and accepted once it is
    repaired as docs/SERVING.md says"""
    log, rows = tester.folder / "repaired", rows_of(FIRST)
    for end in (
        bytes(5000),
        b"0,+bid,1,0.0,5" + bytes(2),
        bytes(20) + rows,
        b"0,+bid,1" + bytes(3) + b"0.0,5\n" + rows,
    ):
        text = rows + end
        log.write_bytes(text)
        tester.tally.check(
            fault_of(tester.program, log) is not None and log.read_bytes() == text,
            f"a log with NUL bytes, {end[:20]!r}",
        )
        before, _, after = text.partition(bytes(1))
        log.write_bytes(before[: before.rfind(b"\n") + 1] if after.strip(bytes(1)) else before)
        tester.tally.check(
            fault_of(tester.program, log) is None and log.read_bytes() == rows, f"a repaired log, {end[:20]!r}"
        )


def special_files(tester: AuctionTester) -> None:
    """a pipe, a device or a folder as a log: a fault at once; a cut row that cannot be kept: a
    fault, and the log is as it was"""
    pipe, log = tester.folder / "pipe", tester.folder / "uncut"
    os.mkfifo(pipe)
    for path in (pipe, Path("/dev/null"), Path("/dev/full"), Path("/dev/zero")):
        tester.tally.check(fault_of(tester.program, path) == told_of(path, "not a regular file"), f"{path} as a log")
    missing = tester.folder / "none" / "log"
    tester.tally.check(
        fault_of(tester.program, tester.folder) == told_of(tester.folder, UNREAD, errno.EISDIR), "a folder as a log"
    )
    tester.tally.check(
        fault_of(tester.program, missing) == told_of(missing, UNREAD, errno.ENOENT), "a log in no folder"
    )
    text = rows_of(FIRST) + b"0,+bi"
    log.write_bytes(text)
    (tester.folder / "uncut.cut").mkdir()
    tester.tally.check(
        fault_of(tester.program, log) == told_of(log, "cut bytes cannot be kept: not a regular file")
        and log.read_bytes() == text,
        "a cut row that cannot be kept",
    )
    link, far = tester.folder / "link", tester.folder / "far"
    far.mkdir()
    link.symlink_to(far / "log")
    tester.tally.check(
        fault_of(tester.program, link) is None and (far / "log").read_bytes() == b"", "a link to a log that is missing"
    )


def closed_places(tester: AuctionTester) -> None:
    """standard input, output or error closed: the log has the rows and what was asked for, and nothing else,
    and the next start accepts it"""
    rows, row, log = rows_of(FIRST), b"0,+bid,1,0.0,20,5\n", tester.folder / "places"
    replies = f"0,0,bid 0.0\n0,1,{SEEN}\n".encode()
    # Nothing is asked of a program that has no input, and its replies are not seen where it has no output.
    for closed, statuses, asked, seen in (
        ("<&-", (0, 2), b"", b""),
        (">&-", (4,), row, b""),
        ("2>&-", (0,), row, replies),
        ("<&- >&- 2>&-", (0, 2, 4), b"", b""),
        (">&- 2>&-", (4,), row, b""),
    ):
        log.write_bytes(rows + b"0,+bi")
        shell = f"exec {tester.program} --live 1 --log {log} {closed}"
        got = run(["sh", "-c", shell], b"0,bid,1,0.0,20,5\n0,viewuser,0\n")
        right = got.status in statuses and got.stdout == seen and log.read_bytes() == rows + asked
        tester.tally.check(
            right and fault_of(tester.program, log) is None,
            f"with {closed}: {described(got)}, {log.read_bytes()[len(rows):]!r}",
        )


def bad_logs(tester: AuctionTester) -> None:
    """a log with a line that is no row, or a row that is refused: a fault that names file, place and
    reason, and the file is as it was"""
    log, good = tester.folder / "bad", rows_of(FIRST).decode()
    for line, words in (
        ("0,+bid,no row", "record 9: wrong number of fields"),
        ("0,+bid,1,0.0,x,1", "record 9: not a number"),
        ("7,+comment,1,2,0.0,1", "record 9: no such worker"),
        ("0,+item,0,0,Vase,1,2,3,0", "record 9: not a quantity"),
        ("x", "record 9: not a number"),
        *REFUSED_ROWS,
    ):
        for rest in ("", "0,+comment,1,2,0.0,1\n", "0,+com"):
            log.write_text(f"{good}{line}\n{rest}")
            text = log.read_bytes()
            refused = fault_of(tester.program, log)
            tester.tally.check(
                refused == told_of(log, words) and log.read_bytes() == text,
                f"a log with {line!r} and {rest!r}: {refused}",
            )


def read_back(tester: AuctionTester) -> None:
    """a log is a script of rows: it is what `--rows` prints of its replies' requests,
    before and after a second session"""
    log = tester.folder / "rows"
    sent = []
    for seed in range(3):
        asked = [*(FIRST if seed == 0 else ()), *requests(random.Random(seed), 150)]
        sent += asked
        auction = Auction(tester.program, "--log", str(log), *PLAIN)
        auction.many([(0, request) for request in asked])
        copied = log.read_bytes()
        auction.close()
        data = "".join(f"0,{request}\n" for request in sent).encode()
        tester.tally.check(
            copied == log.read_bytes() == expected(data, Options(hot=0, rows=True)).stdout,
            f"the log in and after session {seed} is the model's rows",
        )
    got = run([tester.program, "--rows"], log.read_bytes())
    tester.tally.check(got.stdout == log.read_bytes(), "a log is read as input, and printed again")


def quick_starts(tester: AuctionTester) -> None:
    """a start right after a kill: it goes on from the log if the killed program was waited for; if not, the
    log may be in use for a moment"""
    log = tester.folder / "quick"
    for number in range(100):
        is_awaited = number % 2 == 0
        auction = Auction(tester.program, *PLAIN, "--log", str(log))
        answered = auction.one(FIRST[0])
        auction.process.kill()
        if is_awaited:
            auction.process.wait()
        refused = fault_of(tester.program, log)
        tester.tally.check(
            answered == f"item 0.{number}" and (refused is None or refused == in_use(log) and not is_awaited),
            f"a start right after kill {number}: {refused}",
        )
        wait_until(lambda: fault_of(tester.program, log) is None)
        auction.process.communicate()
    tester.tally.check(log.read_bytes() == rows_of([FIRST[0]] * 100), "the log after 100 kills")


# What fails.


@with_shim
def failing_logs(tester: AuctionTester) -> None:
    """a write, a sync, or one of them and its cut of the log that fails, at each place: the fault with the system's
    words, no reply of that part, and nothing answered is lost"""
    causes = {
        "write": (UNWRITTEN, errno.ENOSPC, "LOG_WRITE_FAILS"),
        "sync": (UNSYNCED, errno.EIO, "LOG_SYNC_FAILS"),
        "write and cut": (UNCUT, errno.EIO, "LOG_WRITE_FAILS", "LOG_CUT_FAILS"),
        "sync and cut": (UNCUT, errno.EIO, "LOG_SYNC_FAILS", "LOG_CUT_FAILS"),
    }
    for cause, (words, why, *limits) in causes.items():
        for number in range(1, 9):
            # The first cut and the first sync are those of the log's opening.
            limited = {name: str(2 if name == "LOG_CUT_FAILS" else number) for name in limits}
            told = UNWRITTEN if limited.get("LOG_SYNC_FAILS") == "1" else words
            log = tester.folder / f"{cause}-{number}"
            auction = Auction(
                tester.program, "--log", str(log), env=os.environ | {"LD_PRELOAD": str(tester.shim)} | limited
            )
            answered, fault = until_refused(auction, [FIRST[0], *(f"comment,{at},{at},0.0,1" for at in range(9))])
            what = f"{cause} {number} fails"
            tester.tally.check(fault == told_of(log, told, why), f"{what}: {fault}")
            lost_nothing(tester, what, log, answered, at_most=len(answered) + cause.endswith("and cut"))


@with_shim
def interrupted_logs(tester: AuctionTester) -> None:
    """reads, writes, syncs and cuts that a signal interrupts, each second, third or seventh: they are tried again,
    and all is answered and logged"""
    for every in (2, 3, 7):
        log = tester.folder / f"interrupted-{every}"
        log.write_bytes(rows_of(FIRST) + b"0,+bi")
        auction = Auction(tester.program, "--log", str(log), env=tester.limited({"INTERRUPTED": every}))
        answered, fault = until_refused(auction, [f"comment,{at},{at},0.0,1" for at in range(40)])
        tester.tally.check(
            answered == [f"comment 0.{at}" for at in range(40)] and fault is None,
            f"each {every}th call is interrupted: {fault}",
        )
        tester.tally.check(
            log.read_bytes() == rows_of([*FIRST, *(f"comment,{at},{at},0.0,1" for at in range(40))]),
            f"the log, each {every}th call interrupted",
        )


def changed_logs(tester: AuctionTester) -> None:
    """a log that another program cuts or adds to while it is in use: the next row is a fault,
    and the file is left as it is"""
    rows = rows_of(FIRST)
    foreign = b"0,+comment,5,6,0.0,1\n"
    for what, text, next_reply in (
        ("emptied", b"", "comment 0.0"),
        ("cut between rows", rows_of(FIRST[:3]), "comment 0.0"),
        ("cut in a row", rows[:-4], "comment 0.0"),
        ("without its last byte", rows[:-1], "comment 0.0"),
        ("added to", rows + foreign, "comment 0.1"),
        ("with one byte more", rows + b"0", "comment 0.0"),
    ):
        log = tester.folder / what.replace(" ", "-")
        auction = Auction(tester.program, "--log", str(log))
        auction.many([(0, request) for request in FIRST])
        log.write_bytes(text)
        tester.tally.check(auction.one("viewuser,9") == SEEN, f"a log {what}: a view")
        answered, fault = until_refused(auction, ["comment,1,2,0.0,1"])
        tester.tally.check(
            (answered, fault) == ([], told_of(log, CHANGED)) and log.read_bytes() == text,
            f"a log {what}: {answered}, {fault}",
        )
        later = Auction(tester.program, "--log", str(log))
        answered, wanted = later.one("comment,1,2,0.0,1"), next_reply if text else "refused 3 NoSuchItem"
        later.close()
        tester.tally.check(answered == wanted, f"a log {what}: the next start answers {answered}")


def replaced(log: Path, other: Path) -> None:
    shutil.copy(log, other)
    other.rename(log)


def linked(log: Path, other: Path, target: Path) -> None:
    log.rename(other)
    log.symlink_to(target)


def turned(log: Path, other: Path) -> None:
    shutil.copy(log, other)
    log.unlink()
    log.symlink_to(other)


def moved_logs(tester: AuctionTester) -> None:
    """a log that is moved, removed or replaced, or whose link is turned, while it is in use: the next row is a fault,
    and no file has it; a link to the log in its place, or another name of it, changes nothing"""
    row = "comment,1,2,0.0,1"
    for number, (what, move, words, why) in enumerate(
        (
            ("moved", Path.rename, CHANGED, None),
            ("removed", lambda log, other: log.unlink(), CHANGED, None),
            ("in a folder that is moved", lambda log, other: log.parent.rename(other), CHANGED, None),
            ("replaced by a copy", replaced, CHANGED, None),
            ("behind a link that is turned to a copy", turned, CHANGED, None),
            (
                "replaced by a link to nothing",
                lambda log, other: linked(log, other, other.with_name("nothing")),
                CHANGED,
                None,
            ),
            ("replaced by a link to itself", lambda log, other: linked(log, other, log), UNREAD, errno.ELOOP),
            ("replaced by a link to it", lambda log, other: linked(log, other, other), None, None),
            ("with a second name", lambda log, other: other.hardlink_to(log), None, None),
        )
    ):
        folder = tester.folder / f"moved-{number}"
        log, other = folder / "in" / "log", folder / "other"
        log.parent.mkdir(parents=True)
        if move is turned:
            log.symlink_to(folder / "first")
        auction = Auction(tester.program, "--log", str(log))
        auction.many([(0, request) for request in FIRST])
        move(log, other)
        tester.tally.check(auction.one("viewuser,9") == SEEN, f"a log {what}: a view")
        before = held_by(folder)
        outcome = until_refused(auction, [row])
        if words is None:
            is_right = outcome == (["comment 0.0"], None) and log.read_bytes() == rows_of([*FIRST, row])
        else:
            is_right = outcome == ([], told_of(log, words, why)) and held_by(folder) == before
        tester.tally.check(is_right, f"a log {what}: {outcome}")


def held_by(folder: Path) -> dict[Path, bytes]:
    """What the files of a folder hold."""
    return {path: path.read_bytes() for path in folder.rglob("*") if path.is_file()}


def until_refused(auction: Auction, asked: Iterable[str]) -> tuple[list[str], tuple | None]:
    """The replies until the program ends, one by one, and its fault."""
    answered = []
    try:
        answered.extend(auction.one(request) for request in asked)
        auction.close()
    except Refused as refused:
        return answered, refused.args
    return answered, None


def lost_nothing(tester: AuctionTester, what: str, log: Path, answered: list[str], at_most: int) -> None:
    """The log's whole lines are the rows of the replies, or some more, and a later run goes on from them."""
    rows = whole_lines(log).count(b"\n")
    tester.tally.check(len(answered) <= rows <= at_most, f"{what}: {len(answered)} answered, {rows} rows kept")
    auction = Auction(tester.program, "--log", str(log))
    shown = auction.one("viewitem,0.0") if rows else SEEN
    tester.tally.check(
        shown.startswith(("viewitem", "user"))
        and auction.one("comment,1,1,0.0,1") == (f"comment 0.{rows - 1}" if rows else "refused 3 NoSuchItem"),
        f"{what}: a later run goes on",
    )
    auction.close()


def full_disks(tester: AuctionTester) -> None:
    """a log that may have k bytes, and one on a small disk that is full"""
    asked = [FIRST[0], *(f"comment,{at},{at},0.0,1" for at in range(99))]
    for size in range(0, 200, 7):
        log = tester.folder / f"limited-{size}"
        limit = partial(resource.setrlimit, resource.RLIMIT_FSIZE, (size, size))
        answered, fault = until_refused(Auction(tester.program, "--log", str(log), preexec_fn=limit), asked)
        tester.tally.check(fault == told_of(log, UNWRITTEN, errno.EFBIG), f"a log of at most {size} bytes: {fault}")
        lost_nothing(tester, f"a log of at most {size} bytes", log, answered, at_most=len(answered))
    disk = tester.folder / "disk"
    disk.mkdir()
    mount = ["mount", "-t", "tmpfs", "-o", "size=16k", "tmpfs", disk]
    if os.geteuid() != 0 or subprocess.run(mount, capture_output=True).returncode != 0:
        return tester.tally.skip("a small disk that is full", "none can be mounted")
    try:
        auction = Auction(tester.program, "--log", str(disk / "log"), most=100)
        auction.one(FIRST[0])
        answered = 1
        with suppress(Refused):
            while True:
                answered += len(auction.many([(0, f"comment,1,{at},0.0,1") for at in range(100)]))
        rows = whole_lines(disk / "log").count(b"\n")
        tester.tally.check(
            (auction.process.returncode, rows) == (5, answered),
            f"a full disk: {answered} answered, {rows} rows, status {auction.process.returncode}",
        )
    finally:
        subprocess.run(["umount", disk], check=True)


def refused_memory(tester: AuctionTester) -> None:
    """no memory at each place, once and from then on: a fault, the replies of whole parts,
    and a log that has their rows"""
    shim = build_shim("refused_memory", tester.folder)
    if shim is None:
        return tester.tally.skip(refused_memory.__doc__, "there is no C compiler")
    log, opening = tester.folder / "refused", rows_of(FIRST[:2]).decode()
    data = "".join(f"0,{request}\n" for request in requests(random.Random(9), 8)).encode()
    refusing = Refusing(shim, [tester.program, "--live", "2", "--log", log], data)
    log.write_text(opening)
    whole, rows = run(refusing.command, data), log.read_bytes()
    for and_all_after, unreached in ((False, 0), (True, 0)):
        for number in itertools.count(1):
            log.write_text(opening)
            refusal = refusing.refusal(number, and_all_after)
            tester.tally.check(
                is_front(refusal.outcome, whole, log.read_bytes(), rows), f"{refusal}: {described(refusal.outcome)}"
            )
            unreached = 0 if refusal.was_reached else unreached + 1
            if unreached == UNREACHED_IN_A_ROW:
                break


def is_front(got: Outcome, whole: Outcome, log: bytes, rows: bytes) -> bool:
    """Whether a run of parts of two requests told whole parts and logged their rows, and no more
    than those of one part else."""
    replies = got.stdout.decode().splitlines()
    logged = 2 + sum(is_stored(reply.split(",", 2)[2]) for reply in replies)
    ended = got == whole if got.status == 0 else got.stderr.endswith(b"no memory\n") and 1 <= got.status <= 5
    told = whole.stdout.startswith(got.stdout) and len(replies) % 2 == 0
    return ended and told and rows.startswith(log) and logged <= log.count(b"\n") <= logged + 2


def refused_memory_of_a_cut_row(tester: AuctionTester) -> None:
    """no memory at each place, once and from then on, while a cut row is taken off a log: a fault that says so, and the
    row is in the log or beside it"""
    shim = build_shim("refused_memory", tester.folder)
    if shim is None:
        return tester.tally.skip(refused_memory_of_a_cut_row.__doc__, "there is no C compiler")
    log, rows, tail = tester.folder / "refused-cut", rows_of(FIRST[:2]), b"0,+bi"
    kept_off, data = log.with_name("refused-cut.cut"), b"0,viewuser,0\n"
    told = f"rubis_auction: {len(tail)} bytes of a cut line taken off the log, kept in {kept_off}\n".encode()
    answer = Outcome(0, f"0,0,{SEEN}\n".encode(), told)
    log.write_bytes(rows + tail)
    refusing = Refusing(shim, [tester.program, "--log", log], data)
    for and_all_after in (False, True):
        for refusal in refusing.each(and_all_after):
            got, text = refusal.outcome, log.read_bytes()
            is_cut = text == rows and whole_lines(kept_off) == tail + b"\n"
            named = rb"(%b|log): " % re.escape(bytes(log)) if got.status == 5 else b""
            words = re.fullmatch(rb"rubis_auction: %b(row \d+: )?no memory\n" % named, got.stderr.removeprefix(told))
            is_told = got.status in range(1, 6) and got.stdout in (b"", answer.stdout) and words is not None
            tester.tally.check(
                got == answer and is_cut or is_told and (is_cut or text == rows + tail), f"{refusal}: {described(got)}"
            )
            log.write_bytes(rows + tail)
            kept_off.unlink(missing_ok=True)


CHECKS = (
    own_streams,
    closed_streams,
    foreign_ends,
    cuts_that_lead_elsewhere,
    special_ledgers,
    unsynced_folders,
    locked_log,
    without_locks,
    forbidden_logs,
    append_only_logs,
    cut_logs,
    foreign_files,
    repaired_logs,
    special_files,
    closed_places,
    bad_logs,
    read_back,
    quick_starts,
    failing_logs,
    interrupted_logs,
    changed_logs,
    moved_logs,
    full_disks,
    refused_memory,
    refused_memory_of_a_cut_row,
)



def main() -> None:
    words = parser_of(__doc__)
    words.add_argument("program", nargs="?", type=executable, default=str(BUILT))
    words.add_argument("ledger", nargs="?", type=executable, default=str(built("example_ledger")))
    make_all(words, CHECKS, LogTester)


if __name__ == "__main__":
    main()
