#!/usr/bin/env python3
"""Shows that examples/sql is the auction in PostgreSQL.

    tests/postgres.py [PROGRAM [CHECKER]]

Runs of random inputs leave their rows. Of each item, its bids, each category and each user the view of the
program, opened with these rows, is compared with the line that examples/sql/lines.sql gives. Then
examples/sql/perform.py performs random inputs and loads: the referee accepts their histories, and the tables have
the views of the program that is opened with the rows of the history, also if connections break all the time. With
no locks two buyers get the last piece, and the referee names the line. The server is one of its own, in a folder
of its own; without PostgreSQL nothing is tried.
"""

import csv
import io
import os
import random
import re
import shutil
import sys
import tempfile
import time
from collections import defaultdict
from concurrent.futures import Future, ThreadPoolExecutor
from dataclasses import replace
from pathlib import Path
from subprocess import PIPE, run as run_tool
from typing import Any, Iterator, NamedTuple, Protocol

from lib.inputs import PROFILES, Text
from lib.load_model import Plan, load_of
from lib.model import Options, Outcome, open_auction
from lib.program import EXAMPLES, SECONDS, Tally, described, run, two_programs
from lib.records import BYTE_ORDER_MARK, Fault

SQL = EXAMPLES / "sql"
RUNS = 20
OPTIONS = Options(joined=5, split=20, threshold=1, users=6, categories=3, rows=True)
MARKET = ["--users", str(OPTIONS.users), "--categories", str(OPTIONS.categories)]
PERFORMED = 10
LOAD = Plan(
    requests=300,
    items=8,
    users=OPTIONS.users,
    categories=OPTIONS.categories,
    views=40,
    comments=15,
    purchases=10,
    new_items=10,
)
# Four workers want ten pieces each of an item of twenty.
LAST_PIECES, LAST_WORKERS = EXAMPLES / "last_pieces.csv", 4
# Two purchases have to overlap: so often it is tried until two do.
TRIES = 20
OVERSOLD = re.compile(rb"line [0-9]+: [0-3],[0-9]+ buynow [0-3]\.[0-9]+ but refused 7 NotEnough was due\n")
ACCEPTED = Outcome(0, b"the history replays\n", b"")
# A server that waits for a standby that there is not acknowledges nothing. Then all connections in a transaction, of
# which only workers hold locks, are broken.
HOLD = "ALTER SYSTEM SET synchronous_standby_names = 'nobody'; SELECT pg_reload_conf();"
BREAK = "SELECT pg_terminate_backend(pid) FROM pg_locks WHERE locktype = 'advisory';"
GO_ON = "ALTER SYSTEM RESET synchronous_standby_names; SELECT pg_reload_conf();"
BREAKING, BREAKS = replace(LOAD, requests=2000, workers=4, skew=100), 5
# How many requests have numbers.
NUMBERED = "SELECT coalesce(max(last_value), 0) FROM pg_sequences WHERE sequencename = 'commits';"
# Waits in the server until something is so, or for a second: that some requests have numbers, or that some transaction
# has committed and is not acknowledged.
AWAITED = """\
DO $$ BEGIN
    FOR _ IN 1 .. 1000 LOOP
        EXIT WHEN EXISTS (SELECT FROM {});
        PERFORM pg_sleep(0.001), pg_stat_clear_snapshot();
    END LOOP;
END $$;
"""
# What sessions wait for, and which standbys there are.
SEEN_WAITING = """\
SELECT state, wait_event, left(query, 80), count(*) FROM pg_stat_activity \
WHERE backend_type = 'client backend' GROUP BY 1, 2, 3;
SELECT application_name, state, sync_state, flush_lsn, pg_current_wal_lsn() FROM pg_stat_replication;
"""
HAVE_NUMBERS, IS_HELD = (
    "pg_sequences WHERE sequencename = 'commits' AND last_value >= {}",
    "pg_stat_activity WHERE wait_event = 'SyncRep'",
)


class Answers(Protocol):
    """What answers SQL in lines: a server, or those of failover.py."""

    def ask(self, text: str) -> list[str]:
        ...


class Server:
    """A PostgreSQL server that lives as long as a `with` over it. It does not run as root: then
    it is Debian's user for it."""

    def __init__(self, tools: Path) -> None:
        self.tools = tools
        self.leave = ["runuser", "-u", "postgres", "--"] if os.geteuid() == 0 else []

    def __enter__(self) -> "Server":
        self.folder = Path(tempfile.mkdtemp())
        if self.leave:
            shutil.chown(self.folder, "postgres")
        data = self.folder / "data"
        self.call("initdb", "-D", data, "-A", "trust", "-U", "auction", "--no-sync", "--locale=C", "-E", "UTF8")
        settings = f"-c listen_addresses= -c fsync=off -c unix_socket_directories={self.folder}"
        self.call("pg_ctl", "-D", data, "-w", "-l", self.folder / "log", "-o", settings, "start")
        return self

    def __exit__(self, *_: object) -> None:
        self.call("pg_ctl", "-D", self.folder / "data", "-m", "immediate", "stop")
        shutil.rmtree(self.folder)

    def call(self, tool: str, *words: str | Path, text: str = "") -> str:
        path = self.tools / tool if (self.tools / tool).exists() else tool
        return said_by(f"{tool}, given {text!r}", [*self.leave, path, *words], text, cwd="/")

    def ask(self, text: str) -> list[str]:
        asked = self.call(
            "psql", "-h", self.folder, "-U", "auction", "-d", "postgres", "-qAtX", "-v", "ON_ERROR_STOP=1", text=text
        )
        return asked.splitlines()

    def clear(self) -> None:
        self.ask("DROP SCHEMA public CASCADE; CREATE SCHEMA public;")

    def views(self) -> list[str]:
        return self.ask((SQL / "lines.sql").read_text())

    def closing_views(self, rows: bytes) -> list[str]:
        """What a new database says that has these rows."""
        self.clear()
        loading = run_tool(
            [sys.executable, "-B", SQL / "load.py", *MARKET], input=rows.decode(), stdout=PIPE, check=True, text=True
        ).stdout
        tables, views, transactions, lines = (
            (SQL / f"{name}.sql").read_text() for name in ("schema", "views", "transactions", "lines")
        )
        return self.ask(tables + loading + views + transactions + lines)

    def perform(self, data: bytes, *asked: str) -> Outcome:
        """The history of an input that a new database performs."""
        self.clear()
        place = {"PGHOST": str(self.folder), "PGUSER": "auction", "PGDATABASE": "postgres"}
        return run([sys.executable, "-B", SQL / "perform.py", *MARKET, *asked], data, env=os.environ | place)


def said_by(what: str, command: list, text: str = "", **how: Any) -> str:
    """What a tool prints. One that fails or hangs ends the script, which says which one it was."""
    got = run(command, text.encode(), **how)
    if got.status:
        raise SystemExit(f"{what}: {described(got)}")
    return got.stdout.decode()


class Kept(NamedTuple):
    """What perform.py says with --keep: how many requests were acknowledged, how many of them are lost, and
    how many connections broke."""

    acknowledged: int
    lost: int
    broken: int

    @classmethod
    def of(cls, got: Outcome) -> "Kept":
        said = re.fullmatch(
            rb"([0-9]+) requests acknowledged, ([0-9]+) of them lost; ([0-9]+) connections broken\n", got.stderr
        )
        return cls(*map(int, said.groups())) if said else cls(-1, -1, -1)


def items_of(rows: bytes) -> list[tuple[int, int]]:
    workers = [int(line.split(b",")[0]) for line in rows.splitlines() if b",+item," in line[:10]]
    return sorted((worker, workers[:place].count(worker)) for place, worker in enumerate(workers))


def program_views(program: Path, rows: bytes) -> list[str]:
    """What the program replies to views of everything, opened with these rows."""
    items = [f"{worker}.{serial}" for worker, serial in items_of(rows)]
    asked = [f"viewitem,{item}" for item in items] + [f"viewbids,{item}" for item in items]
    asked += [f"viewcategory,{category}" for category in range(OPTIONS.categories)] + [
        f"viewuser,{user}" for user in range(OPTIONS.users)
    ]
    options = replace(OPTIONS, workers=16, rows=False)
    got = run([program, *options.words()], rows + "".join(f"0,{view}\n" for view in asked).encode())
    return [line.split(",", 2)[2] for line in got.stdout.decode().splitlines()]


def text_of(rng: random.Random, workers: int) -> Text:
    text = Text(rng, replace(OPTIONS, workers=workers), (20, 60))
    text.weights = PROFILES["mixed"]
    return text


def rows_of_run(program: Path, rng: random.Random) -> bytes:
    text = text_of(rng, rng.choice((1, 2, 4, 16)))
    return run([program, *text.options.words()], text.made()).stdout


def closing_views(server: Server, program: Path, rng: random.Random, tally: Tally) -> None:
    """closing views of random runs"""
    for number in range(RUNS):
        rows = rows_of_run(program, rng)
        tally.check(*compared(f"run {number}", program_views(program, rows), server.closing_views(rows)))


def compared(what: str, ours: list[str], theirs: list[str]) -> tuple[bool, str]:
    return ours == theirs and len(ours) > 0, f"{what}: {[pair for pair in zip(ours, theirs) if pair[0] != pair[1]][:3]}"


def inputs_of(rng: random.Random) -> Iterator[tuple[int, bytes]]:
    """Inputs for PostgreSQL, each with its number of workers: of random kinds, and loads of all skews.
    Their rows are not refused."""
    for number in range(PERFORMED):
        workers = rng.choice((1, 2, 4))
        yield workers, load_of(
            replace(LOAD, workers=workers, skew=rng.choice((0, 100, 200)), seed=rng.randrange(1 << 32))
        )
        while True:
            text = text_of(rng, workers)
            text.line_end = b"\n"
            data = text.made().removeprefix(BYTE_ORDER_MARK)
            try:
                asked, _ = open_auction(data, text.options)
            except Fault:
                continue
            yield workers, data
            break


def rows_after(data: bytes, history: bytes) -> bytes:
    """The rows of an input, and those that a history of it wrote."""
    scripts, text = defaultdict(list), io.StringIO()
    out = csv.writer(text, lineterminator="\n")
    for worker, kind, *fields in csv.reader(io.StringIO(data.decode())):
        if kind.startswith("+"):
            out.writerow([worker, kind, *fields])
        else:
            scripts[worker].append((kind, fields))
    for line in history.decode().splitlines():
        _, _, worker, index, reply = line.split(" ", 4)
        kind, fields = scripts[worker][int(index)]
        if reply.startswith(f"{kind} ") and not kind.startswith("view"):
            out.writerow([worker, f"+{kind}", *fields])
    return text.getvalue().encode()


def found(checker: Path, folder: Path, workers: int, data: bytes, history: bytes) -> Outcome:
    file = folder / "history"
    file.write_bytes(history)
    return run([checker, "--workers", str(workers), *MARKET, "--strict", "--history", file], data)


def histories(server: Server, program: Path, checker: Path, rng: random.Random, tally: Tally) -> None:
    """histories of PostgreSQL, and the tables after them"""
    for number, (workers, data) in enumerate(inputs_of(rng)):
        got = server.perform(data)
        tally.check((got.status, got.stderr) == (0, b""), f"input {number}: {described(got)}")
        tally.same(f"the history of input {number}", found(checker, server.folder, workers, data, got.stdout), ACCEPTED)
        tally.check(*compared(f"input {number}", program_views(program, rows_after(data, got.stdout)), server.views()))


def wait_for(server: Answers, moment: int, performed: Future) -> None:
    """Waits until so many requests have numbers, or perform.py has ended. If they have none for too long, the script
    ends, and says what is waited for."""
    awaited, end = AWAITED.format(HAVE_NUMBERS.format(moment)), time.monotonic() + SECONDS / 2
    while not performed.done() and (count := int(server.ask(awaited + NUMBERED)[0])) < moment:
        if time.monotonic() > end:
            raise SystemExit(
                f"{count} requests have numbers after {SECONDS / 2:.0f} seconds, not {moment}: "
                f"{server.ask(SEEN_WAITING)}"
            )


def broken_connections(server: Server, program: Path, checker: Path, rng: random.Random, tally: Tally) -> None:
    """a history over connections that break, after a commit too: each request is performed once"""
    data = load_of(replace(BREAKING, seed=rng.randrange(1 << 32)))
    server.clear()
    with ThreadPoolExecutor() as threads:
        performed = threads.submit(server.perform, data, "--keep")
        for moment in range(0, BREAKING.requests, BREAKING.requests // BREAKS):
            wait_for(server, moment + 1, performed)
            server.ask(HOLD + AWAITED.format(IS_HELD))
            server.ask(BREAK + GO_ON)
    got = performed.result()
    told = Kept.of(got)
    tally.check(
        got.status == 0 and told.acknowledged == BREAKING.requests and told.lost == 0 and told.broken > 0,
        f"broken connections: {described(got)}",
    )
    tally.same("broken connections", found(checker, server.folder, BREAKING.workers, data, got.stdout), ACCEPTED)
    tally.check(*compared("broken connections", program_views(program, rows_after(data, got.stdout)), server.views()))


def last_pieces(server: Server, checker: Path, tally: Tally) -> None:
    """the last piece of an item, with locks and without"""
    data = LAST_PIECES.read_bytes()
    tally.same("with locks", found(checker, server.folder, LAST_WORKERS, data, server.perform(data).stdout), ACCEPTED)
    for _ in range(TRIES):
        got = found(checker, server.folder, LAST_WORKERS, data, server.perform(data, "--unlocked").stdout)
        if got != ACCEPTED:
            break
    tally.check(got.status == 5 and OVERSOLD.fullmatch(got.stdout) is not None, f"without locks: {described(got)}")


def tools() -> Path | None:
    """The folder of the server's programs, if it is installed."""
    found_tools = sorted(Path("/usr/lib/postgresql").glob("*/bin/initdb"))
    at_hand = found_tools[-1] if found_tools else shutil.which("initdb")
    return None if at_hand is None or shutil.which("psql") is None else Path(at_hand).parent


def main() -> None:
    program, checker = two_programs(__doc__)
    tally = Tally()
    if tools() is None:
        tally.skip("the auction in PostgreSQL", "it is not installed")
        return tally.finish()
    seed = random.randrange(1 << 32)
    print(f"seed {seed}", flush=True)
    rng = random.Random(seed)
    checks = (
        (closing_views, (program, rng)),
        (histories, (program, checker, rng)),
        (broken_connections, (program, checker, rng)),
        (last_pieces, (checker,)),
    )
    with Server(tools()) as server:
        for check, given in checks:
            tally.tell(check, server, *given, tally)
    tally.finish()


if __name__ == "__main__":
    main()
