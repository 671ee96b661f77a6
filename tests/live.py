#!/usr/bin/env python3
"""Shows what a client of `--live` and `--log` may rely on, as docs/FORMATS.md and docs/SERVING.md say:
replies come while the input is open, parts change no byte, and what was answered outlasts a program that is
killed. The log itself is logs.py's.

    tests/live.py [PROGRAM] [--kills 12] [--seed 1] [--only CHECK]

The kills are of a program under load, at random moments, and what it answered before and after is held
against the model as one auction."""

import fcntl
import itertools
import os
import random
import select
import shutil
import signal
import socket
import subprocess
import sys
import threading
import time
from argparse import Namespace
from contextlib import contextmanager, suppress
from pathlib import Path
from typing import Callable, Iterator

from lib.checks import AuctionTester, make_all, with_shim
from lib.model import Outcome
from lib.program import (
    BUILT,
    EXAMPLES,
    Tally,
    built,
    described,
    executable,
    in_little_memory,
    is_asleep,
    parser_of,
    run,
    run_typed,
)
from lib.records import BYTE_ORDER_MARK
from lib.sessions import (
    FIRST,
    ITEMS,
    PLAIN,
    SECONDS,
    Auction,
    Era,
    Refused,
    fault_of,
    in_use,
    requests,
    rows_of,
    wait_until,
)

SEEN = "user rating=0 comments=0"
ENDS = ("--faults", "end")
# A line with a fault between two requests of worker 0, what is wrong with it, and whether it names that worker.
FAULTY = (
    ("0,bid", "wrong number of fields", True),
    ("0,jump,1", "unknown kind", True),
    ("0,viewuser,01", "not a number", True),
    ('0,viewuser,"0', "not a number", True),
    ("0,viewuser,0\r0,viewuser,0", "wrong number of fields", True),
    ("0,viewuser," + "9" * 70_000, "too long", True),
    ("0,viewitem,0", "not an item id", True),
    ("0,+bid,1,0.0,5,5", "row after a request", True),
    ("x,viewuser,0", "not a number", False),
    ("1,viewuser,0", "no such worker", False),
    ("9" * 70_000, "too long", False),
)
LINE_ENDS = ("\n", "\r\n", "\n\n", "\r\n\r\n")


class LiveTester(AuctionTester):
    """Also knows how often the program is to be killed, and by which seed."""

    def __init__(self, asked: Namespace, folder: Path, tally: Tally) -> None:
        super().__init__(asked, folder, tally)
        self.kills, self.seed = asked.kills, asked.seed


# While the input is open.


def line_ends(tester: LiveTester) -> None:
    """replies before the input ends, for each end of a line, blank lines, and a line and a half"""
    for end, words in itertools.product(LINE_ENDS, ((), ENDS)):
        auction = Auction(tester.program, *words, most=10)
        for turn in range(3):
            auction.write(f"0,viewuser,0{end}")
            tester.tally.check(auction.reply() == ((0, turn), SEEN), f"a reply after {end!r}")
        auction.write(f"0,viewuser,0{end}0,view")
        tester.tally.check(auction.reply() == ((0, 3), SEEN), f"a reply before half a line, {end!r}")
        auction.write("user,0")
        auction.process.stdin.close()
        tester.tally.check(
            auction.reply() == ((0, 4), SEEN) and auction.process.wait() == 0,
            f"the reply to a last line without an end, {end!r}",
        )


def terminals(tester: LiveTester) -> None:
    """an input from a terminal: one Ctrl-D at the start of a line ends it, and two behind half a line"""
    for words in ((), ("--live", "1"), ("--live", "1", *ENDS)):
        for typed in (b"0,viewuser,0\n\x04", b"0,viewuser,0\x04\x04"):
            got = run_typed([tester.program, *words], typed)
            tester.tally.same(f"{typed!r} on a terminal, {words}", got, Outcome(0, f"0,0,{SEEN}\n".encode(), b""))


def clients(tester: LiveTester) -> None:
    """the client of examples/ by itself, one request and many by several workers, a line with a fault,
    and one that ends the program"""
    got = run([sys.executable, "-B", EXAMPLES / "client.py", tester.program])
    seen = "viewitem seller=0 category=0 start=10 closes=100 highest=700 bidder=2 bids=2 left=1 name=Vase"
    tester.tally.check(
        got.stdout.decode().splitlines() == ["item 0.0", "bid 0.0", "bid 0.1", seen],
        f"examples/client.py: {described(got)}",
    )
    auction = Auction(tester.program, "--workers", "3", *PLAIN)
    tester.tally.check(auction.one("item,0,0,Vase,10,1000,1,5000", 2) == "item 2.0", "the first reply of worker 2")
    told = auction.many([(at % 3, f"bid,1,2.0,{at + 10},1") for at in range(3000)])
    tester.tally.check(
        told == [f"bid {at % 3}.{at // 3}" for at in range(3000)], "3,000 replies in the order of their requests"
    )
    auction.write("0,bid\n")
    tester.tally.check(
        auction.reply() == ((0, 1000), "fault record 3002: wrong number of fields"), "the answer to a line with a fault"
    )
    tester.tally.check(auction.one("viewuser,0") == "user rating=0 comments=0", "the request behind it")
    auction.close()
    auction = Auction(tester.program, *ENDS)
    with suppress(Refused):
        auction.one("bid")
        tester.tally.check(False, "a record with a fault is answered with --faults end")
    tester.tally.check(auction.process.returncode == 2, "the status of a record with a fault")


def faulty_lines(tester: LiveTester) -> None:
    """a line with a fault between requests: answered in its place, or told on standard error if it names no worker, or
    none asks for replies; with --faults end it ends the input"""
    for line, words, is_named in FAULTY:
        data = f"0,viewuser,0\n{line}\n0,viewuser,0\n".encode()
        first, answer, last = f"0,0,{SEEN}\n", f"0,1,fault record 2: {words}\n", f"0,1,{SEEN}\n"
        told = f"rubis_auction: record 2: {words}\n"
        for options in (
            ("--live", "1"),
            ("--live", "1", "--faults", "answer"),
            ("--live", "1000"),
            ("--live", "1000", "--faults", "answer"),
        ):
            got = run([tester.program, *options], data)
            wanted = (first + answer + last, "") if is_named else (first + last, told)
            tester.tally.check(
                (got.status, got.stdout.decode(), got.stderr.decode()) == (0, *wanted),
                f"{line[:40]!r} with {options}: {described(got)}",
            )
        got = run([tester.program, "--live", "1000", "--history"], data)
        tester.tally.check(
            (got.status, got.stdout.count(b"\n"), got.stderr.decode()) == (0, 2, told),
            f"{line[:40]!r} with --history: {described(got)}",
        )
        log = tester.folder / "ended"
        for ends in (["--live", "1", *ENDS], ["--live", "1000", *ENDS], ["--log", log], ["--log", log, *ENDS]):
            log.unlink(missing_ok=True)
            got = run([tester.program, *ends], data)
            tester.tally.check(
                (got.status, got.stdout.decode(), got.stderr.decode()) == (2, first, told),
                f"{line[:40]!r} with {ends}: {described(got)}",
            )


@with_shim
def cut_lines(tester: LiveTester) -> None:
    """lines with a fault, behind a mark of byte order, of which each read gives few bytes: the same answers"""
    for line, words, is_named in FAULTY:
        data = BYTE_ORDER_MARK + f"0,viewuser,0\n{line}\n0,viewuser,0\n".encode()
        answer = f"0,1,fault record 2: {words}\n" if is_named else ""
        told = "" if is_named else f"rubis_auction: record 2: {words}\n"
        wanted = Outcome(0, f"0,0,{SEEN}\n{answer}0,1,{SEEN}\n".encode(), told.encode())
        for most in (1, 2, 7):
            got = run([tester.program, "--live", "1"], data, env=tester.limited({"READ_AT_MOST": most}))
            tester.same(f"{line[:40]!r}, {most} bytes a read", got, wanted)


def ends_without_live(tester: LiveTester) -> None:
    """--faults end without --live changes nothing: a line with a fault ends the input anyway"""
    for data in (b"", b"0,viewuser,0\n", b"0,viewuser,0\n0,bid\n0,viewuser,0\n"):
        for words in ((), ("--live", "0"), ("--log", str(tester.folder / "unended"))):
            got, wanted = (run([tester.program, *words, *how], data) for how in (ENDS, ()))
            tester.tally.check(
                got == wanted and got.status == (2 if b"bid" in data else 0), f"{data!r}, {words}: {described(got)}"
            )


def faulty_rows(tester: LiveTester) -> None:
    """lines with a fault among the rows, and before anything else: the rows behind them open the
    auction, and the log has each once"""
    log = tester.folder / "faulty"
    data = (
        b"0,bid\n0,+item,0,0,Vase,10,100,1\n0,+bid,1,0.0,x,5\n0,+bid,1,0.0,50,5\n1,viewuser,0\n"
        b"0,viewbids,0.0\n0,+bid,1,0.0,60,5\n0,bid,2,0.0,70,6\n"
    )
    got = run([tester.program, "--live", "10", "--log", log], data)
    wanted = (
        b"0,0,fault record 1: wrong number of fields\n0,0,fault record 3: not a number\n0,0,bids 50:5:1:0.0\n"
        b"0,1,fault record 7: row after a request\n0,1,bid 0.1\n"
    )
    tester.tally.check(
        (got.status, got.stdout, got.stderr) == (0, wanted, b"rubis_auction: record 5: no such worker\n"),
        f"faults among rows: {described(got)}",
    )
    wanted = b'0,+item,0,0,"Vase",10,100,1,1\n0,+bid,1,0.0,50,5\n0,+bid,2,0.0,70,6\n'
    tester.tally.check(log.read_bytes() == wanted, f"the log after faults among rows: {log.read_bytes()!r}")


def answered_faults(tester: LiveTester) -> None:
    """lines with a fault anywhere among rows and requests: each is answered where it stands, and changes no reply"""
    for seed in range(40):
        draw = random.Random(seed)
        lines = [f"0,+{row}" for row in FIRST] + [f"0,{request}" for request in requests(draw, 60)]
        plain = iter(
            run([tester.program, *PLAIN], "".join(line + "\n" for line in lines).encode()).stdout.decode().splitlines()
        )
        given, wanted, index = [], [], 0
        for line in lines:
            while draw.random() < 0.3:
                given.append("0,bid,1")
                wanted.append(f"0,{index},fault record {len(given)}: wrong number of fields")
            given.append(line)
            if not line.startswith("0,+"):
                wanted.append(next(plain))
                index += 1
        data = "".join(line + "\n" for line in given).encode()
        for most in (1, 7, 1_000_000):
            got = run([tester.program, *PLAIN, "--live", str(most)], data)
            tester.tally.check(
                got.status == 0 and got.stdout.decode().splitlines() == wanted,
                f"seed {seed}, --live {most}: {described(got)}",
            )


def open_quotes(tester: LiveTester) -> None:
    """lines with quotes, and then one with a quote that stays open: each is answered before more comes"""
    auction = Auction(tester.program, most=1000)
    auction.write('"0",viewuser,0\n0,viewuser,1\n0,item,0,0,"a\n')
    wanted = [((0, 0), SEEN), ((0, 1), SEEN), ((0, 2), "fault record 3: wrong number of fields")]
    tester.tally.check([auction.reply() for _ in wanted] == wanted, "replies while a quote is open")
    auction.write("0,viewuser,2\n")
    tester.tally.check(auction.reply() == ((0, 2), SEEN), "a request behind an open quote")
    auction.close()


def other_workers(tester: LiveTester) -> None:
    """lines of one worker with an open quote, with a record of the other behind a carriage return, and of no kind:
    faults of that worker alone, and the other's requests keep their replies and places"""
    data = (
        b'0,item,0,0,Vase,10,100,1\n1,item,0,0,"\n1,viewuser,0\r0,bid,5,0.0,999,1\n1,nonsense\n'
        b"0,bid,1,0.0,20,5\n1,viewuser,0\n0,viewbids,0.0\n"
    )
    faults = (
        f"1,0,fault record {at}: {words}"
        for at, words in ((2, "wrong number of fields"), (3, "wrong number of fields"), (4, "unknown kind"))
    )
    first, bid, seen, bids = ["0,0,item 0.0", *faults], "0,1,bid 0.0", f"1,0,{SEEN}", "0,2,bids 20:5:1:0.0"
    for most, last in ((1, [bid, seen, bids]), (1000, [bid, bids, seen])):
        got = run([tester.program, "--workers", "2", "--live", str(most)], data)
        tester.tally.check(
            (got.status, got.stdout.decode().splitlines(), got.stderr) == (0, first + last, b""),
            f"two workers, --live {most}: {described(got)}",
        )


def endless_lines(tester: LiveTester) -> None:
    """lines of 70 MB in little memory: a fault, and the request behind each is answered"""
    for byte in (b",", b'"'):
        given = tester.folder / "endless"
        given.write_bytes(b"0,viewuser,0" + byte * 70_000_000 + b"\n" + b"0,viewuser,0\n")
        with given.open("rb") as lines:
            got = run([tester.program, "--live", "10"], lines, preexec_fn=in_little_memory)
        wanted = f"0,0,fault record 1: too long\n0,0,{SEEN}\n"
        tester.tally.check(
            (got.status, got.stdout.decode(), got.stderr) == (0, wanted, b""), f"a line of {byte!r}: {described(got)}"
        )


def signals(tester: LiveTester) -> None:
    """signals that end no program, among them one that stops it, while it reads, replies and
    logs: all is answered and logged"""
    log = tester.folder / "signalled"
    auction = Auction(tester.program, *PLAIN, "--log", str(log), most=100)
    harmless = (
        signal.SIGSTOP,
        signal.SIGCONT,
        signal.SIGWINCH,
        signal.SIGCHLD,
        signal.SIGURG,
        signal.SIGPIPE,
        signal.SIGCONT,
    )
    sending = threading.Event()
    thread = threading.Thread(target=send_each, args=(auction.process, harmless, sending), daemon=True)
    auction.one(FIRST[0])
    thread.start()
    told = auction.many([(0, "comment,1,2,0.0,1")] * 30_000)
    seen = auction.one("viewuser,2")
    sending.set()
    thread.join()
    auction.close()
    tester.tally.check(
        told == [f"comment 0.{at}" for at in range(30_000)] and seen == "user rating=30000 comments=30000",
        "replies under signals",
    )
    tester.tally.check(log.read_bytes().count(b"\n") == 30_001, "the log under signals")


def send_each(process: subprocess.Popen, all_signals: tuple, ended: threading.Event) -> None:
    for one in itertools.cycle(all_signals):
        process.send_signal(one)
        if one == signal.SIGCONT and ended.is_set():
            return
        time.sleep(0.0005)


def sockets(tester: LiveTester) -> None:
    """one client at a time behind socat: each goes on from the log, and a second one meanwhile has no reply"""
    if shutil.which("socat") is None:
        return tester.tally.skip(sockets.__doc__, "socat is not installed")
    place, log = tester.folder / "socket", tester.folder / "socket.rows"
    with subprocess.Popen(
        ["socat", f"UNIX-LISTEN:{place},fork", f"EXEC:{tester.program} --live 1000 --log {log}"],
        stderr=subprocess.DEVNULL,
    ) as server:
        with connected(place) as first:
            tester.tally.check(first("0,item,0,0,Vase,10,100,1") == "0,0,item 0.0", "the first reply through a socket")
            with connected(place) as second:
                tester.tally.check(second("0,viewuser,0") == "", "a second client has no reply")
            tester.tally.check(first("0,bid,1,0.0,500,3") == "0,1,bid 0.0", "the first client goes on")
        wait_until(lambda: fault_of(tester.program, log) != in_use(log))
        with connected(place) as third:
            tester.tally.check(third("0,bid,2,0.0,700,4") == "0,0,bid 0.1", "a later client goes on from the log")
        server.terminate()


@contextmanager
def connected(place: Path) -> Iterator[Callable[[str], str]]:
    """A client of a socket: what it sends a line to for its reply, which is empty if the other side is closed."""
    with socket.socket(socket.AF_UNIX) as client:
        # A server that is starting is not there, or does not listen yet.
        wait_until(lambda: client.connect_ex(str(place)) == 0)
        client.settimeout(SECONDS)
        replies = client.makefile("r")

        def ask(record: str) -> str:
            with suppress(ConnectionError):
                client.sendall(f"{record}\n".encode())
                return replies.readline().rstrip("\n")
            return ""

        yield ask
        replies.close()


def unread_replies(tester: LiveTester) -> None:
    """a client that reads no replies: the program takes more requests than the pipe holds, a thousand at least, and
    waits; once they are read, all that was sent is answered"""
    process, request = Auction(tester.program).process, b'0,item,0,0,"%s",10,1900000000000,1\n' % (b"x" * 31)
    pipe, left = process.stdin.fileno(), request * 100_000
    # Of a program that reads nothing the pipe takes so many requests, the last of them perhaps in part.
    held = fcntl.fcntl(pipe, fcntl.F_GETPIPE_SZ) // len(request) + 1
    while left and gets_room(process, pipe):
        left = left[os.write(pipe, left[:1000]) :]
    count = 100_000 - len(left) // len(request)
    replies, _ = process.communicate(left[: len(left) % len(request)], SECONDS)
    tester.tally.check(
        max(held, 1000) < count < 100_000,
        f"{count} requests whose replies nobody reads, of which the pipe holds at most {held}",
    )
    tester.tally.check(
        replies.decode().splitlines() == [f"0,{index},item 0.{index}" for index in range(count)],
        f"their replies, once they are read: {replies[-60:]}",
    )


def gets_room(process: subprocess.Popen, pipe: int) -> bool:
    """Whether a pipe to a program has room: it gets none any more once the program sleeps, since one that has input
    waits only for its replies to be read."""
    while not select.select([], [pipe], [], 1)[1]:
        if is_asleep(process.pid):
            return False
    return True


def short_parts(tester: LiveTester) -> None:
    """views of what a long part makes hot are stashed, and in parts that are not longer than
    the joined phase they are not"""
    data = FIRST[0], *(request for number in range(200) for request in (f"bid,1,0.0,{500 + number},5", "viewitem,0.0"))
    for most, is_stashed in ((10, False), (1000, True)):
        got = run(
            [tester.program, "--history", "--live", str(most), "--joined", "64", "--split", "64", "--threshold", "1"],
            "".join(f"0,{request}\n" for request in data).encode(),
        )
        indexes = [int(line.split(b" ")[3]) for line in got.stdout.splitlines()]
        tester.tally.check(
            sorted(indexes) == [*range(len(data))] and (indexes != sorted(indexes)) == is_stashed,
            f"parts of {most}: {indexes[60:80]}",
        )


def no_report(tester: LiveTester) -> None:
    """no report with --live or --log"""
    for words in (("--live", "1"), ("--log", str(tester.folder / "unmade"))):
        got = run([tester.program, "--report", *words], b"0,viewuser,0\n")
        tester.tally.check(
            (got.status, got.stdout, got.stderr) == (1, b"", b"rubis_auction: no report with --live or --log\n"),
            f"{words}: {described(got)}",
        )


# Parts change nothing.


def same_bytes(tester: LiveTester) -> None:
    """replies, rows and history of parts of 1, 7 and 1,000,000 requests, with odd line ends, views and refusals,
    and with a fault in the middle"""
    for seed in range(60):
        draw = random.Random(seed)
        end, count = draw.choice(LINE_ENDS), draw.choice((3, 30, 200))
        lines = [f"0,+{row}" for row in FIRST[: draw.randrange(ITEMS)]] + [
            f"0,{request}" for request in requests(draw, count)
        ]
        fault = draw.randrange(len(lines) + 1) if draw.random() < 0.4 else None
        given = (
            lines
            if fault is None
            else [*lines[:fault], draw.choice(("0,bid", "1,viewuser,0", "x", "0,viewuser,01")), *lines[fault:]]
        )
        last = end if draw.random() < 0.8 else ""
        for how in ((), ("--history",), ("--rows",)):
            wanted = run([tester.program, *PLAIN, *how], "".join(line + "\n" for line in lines[:fault]).encode())
            for most in (1, 7, 1_000_000):
                words = [tester.program, *PLAIN, *how, *ENDS, "--live", str(most)]
                got = run(words, (end.join(given) + last).encode())
                status = 0 if fault is None else 2
                tester.tally.check(
                    got.status == status and printed(got.stdout, how) == printed(wanted.stdout, how),
                    f"seed {seed}, {words[1:]}: {described(got)}",
                )


def printed(text: bytes, how: tuple) -> list[bytes]:
    """The lines; of those of a history what does not count phases."""
    return [line.split(b" ", 2)[2] if how == ("--history",) else line for line in text.splitlines()]


def histories(tester: LiveTester) -> None:
    """histories of 1 to 4 workers in parts, some after the rows of a log, which the referee
    accepts, in session order too"""
    referee = built("rubis_check")
    if not referee.exists():
        return tester.tally.skip(histories.__doc__, f"{referee} is not built")
    history, log = tester.folder / "history", tester.folder / "judged"
    for seed in range(40):
        draw = random.Random(seed)
        workers = draw.choice((1, 2, 4))
        lines = [
            f"{draw.randrange(workers)},{request}" for request in (*FIRST, *requests(draw, draw.choice((3, 50, 300))))
        ]
        data = "".join(line + "\n" for line in lines).encode()
        rows = rows_of(FIRST[: draw.choice((0, 5))], (draw.randrange(workers) for _ in FIRST))
        log.write_bytes(rows)
        words = ["--workers", str(workers)]
        quotas = [f"--{name}={draw.randrange(1, 5)}" for name in ("joined", "split", "threshold")]
        got = run(
            [
                tester.program,
                *words,
                *quotas,
                "--history",
                f"--live={draw.choice((1, 3, 20, 1_000_000))}",
                *(["--log", log] if rows else []),
            ],
            data,
        )
        history.write_bytes(got.stdout)
        judged = run([referee, *words, "--order", "--history", history], rows + data)
        tester.tally.check(got.status == 0 and judged.status == 0, f"history of seed {seed}: {described(judged)}")


# Kills.


def kills(tester: LiveTester) -> None:
    """a program under load that is killed at random moments and started again"""
    draw, era = random.Random(tester.seed), None
    for number in range(tester.kills):
        if era is None or era.is_over():
            era = Era(tester, draw)
        era.session(number)
        if (number + 1) % 50 == 0:
            print(f"{number + 1} kills", flush=True)


CHECKS = (
    line_ends,
    terminals,
    clients,
    faulty_lines,
    cut_lines,
    ends_without_live,
    faulty_rows,
    answered_faults,
    open_quotes,
    other_workers,
    endless_lines,
    signals,
    sockets,
    unread_replies,
    short_parts,
    no_report,
    same_bytes,
    histories,
    kills,
)


def main() -> None:
    words = parser_of(__doc__)
    words.add_argument("program", nargs="?", type=executable, default=str(BUILT))
    words.add_argument("--kills", type=int, default=12)
    words.add_argument("--seed", type=int, default=1)
    make_all(words, CHECKS, LiveTester)


if __name__ == "__main__":
    main()
