#!/usr/bin/env python3
"""Shows that the auction of examples/sql on three PostgreSQL servers keeps what it has acknowledged over a failover,
and that the referee sees what is lost otherwise.

    tests/failover.py [PROGRAM [CHECKER]]

Clients (examples/sql/perform.py --keep) perform a load while one standby falls behind, the primary is killed with
signal 9, and the other takes over (examples/sql/three.sh). If commits wait for a standby, five failovers lose nothing
that was acknowledged, the referee accepts each history, and the tables have the views of the program that is opened
with the rows of the history. If they do not wait, and both standbys fall behind, the referee names a request that was
acknowledged and is lost. Without PostgreSQL nothing is tried.
"""

import os
import random
import re
import signal
import socket
import sys
from concurrent.futures import Future, ThreadPoolExecutor
from contextlib import contextmanager
from dataclasses import replace
from pathlib import Path
from typing import Callable, Iterator

import postgres
from lib.load_model import Plan, load_of
from lib.model import Outcome
from postgres import (
    ACCEPTED,
    HOLD,
    MARKET,
    NUMBERED,
    SQL,
    Kept,
    compared,
    found,
    program_views,
    rows_after,
    said_by,
    wait_for,
)
from lib.program import Tally, described, run, servers_folder, two_programs

FAILOVERS = 5
WORKERS, REQUESTS = 8, 3000
LOAD = replace(postgres.LOAD, requests=REQUESTS, workers=WORKERS, items=16, skew=100)
LONG = replace(LOAD, requests=3 * REQUESTS)
VIEWS = SQL / "lines.sql"
HEAR_NOTHING = "ALTER SYSTEM SET primary_conninfo = ''; SELECT pg_reload_conf();"
# The process that a primary began with, and those that send to its standbys.
PRIMARY, SENDERS = (
    "SELECT split_part(pg_read_file('postmaster.pid'), chr(10), 1);",
    "SELECT pid FROM pg_stat_replication;",
)
# On a busy machine a load may end before the primary dies: so often another is tried.
TRIES = 20
LOST = re.compile(rb"[0-7],[0-9]+ stands in no line\n")


class Servers:
    """A primary and two standbys in a folder."""

    def __init__(self, folder: Path) -> None:
        self.folder = folder

    def three(self, command: str, *words: str) -> str:
        return said_by(f"three.sh {command}", [SQL / "three.sh", command, self.folder / "servers", *words]).strip()

    def start(self) -> None:
        self.three("start", str(first_free_port()))
        self.address = self.three("address")

    def ask(self, text: str, role: str = "read-write") -> list[str]:
        """What the primary says, or the first server of another role."""
        words = ["psql", "-d", f"{self.address} target_session_attrs={role}", "-qAtX", "-v", "ON_ERROR_STOP=1"]
        return said_by(f"psql, asked {text!r}", words, text).splitlines()

    def fail_over(self, data: bytes, moment: int, kill: Callable[[Future], None]) -> Outcome:
        """The history of an input that a new auction performs. The primary is killed after so many requests; from half
        of them on one standby hears nothing."""
        self.ask("SET client_min_messages = warning; DROP SCHEMA public CASCADE; CREATE SCHEMA public;")
        self.primary = int(self.ask(PRIMARY)[0])
        words = [sys.executable, "-B", SQL / "perform.py", *MARKET, "--keep", "--database", self.address]
        with ThreadPoolExecutor() as threads:
            clients = threads.submit(run, words, data)
            wait_for(self, moment // 2, clients)
            self.ask(HEAR_NOTHING, "standby")
            wait_for(self, moment, clients)
            kill(clients)
            self.three("promote")
            self.three("rejoin")
        return clients.result()

    def kill(self, _: Future) -> None:
        """Kills the primary, at once."""
        os.kill(self.primary, signal.SIGKILL)

    def kill_behind(self, clients: Future) -> None:
        """Kills the primary while no standby hears. Of WORKERS + 1 requests begun meanwhile one worker has two, so the
        first of these was acknowledged."""
        senders = [int(pid) for pid in self.ask(SENDERS)]
        for sender in senders:
            os.kill(sender, signal.SIGSTOP)
        wait_for(self, int(self.ask(NUMBERED)[0]) + WORKERS + 1, clients)
        self.ask(HOLD)
        self.three("kill")
        for sender in senders:
            os.kill(sender, signal.SIGKILL)


def first_free_port() -> int:
    """The first of three ports that are free."""
    while any(map(is_used, range(first := random.randrange(20_000, 30_000), first + 3))):
        pass
    return first


def is_used(port: int) -> bool:
    with socket.socket() as tried:
        return tried.connect_ex(("127.0.0.1", port)) == 0


@contextmanager
def three_servers() -> Iterator[Servers]:
    with servers_folder() as folder:
        servers = Servers(Path(folder))
        Path(folder).chmod(0o711)
        try:
            servers.start()
            yield servers
        finally:
            servers.three("stop")


def inputs(rng: random.Random, load: Plan) -> Iterator[tuple[bytes, int]]:
    """Loads, each with how many of its requests precede the kill."""
    while True:
        yield load_of(replace(load, seed=rng.randrange(1 << 32))), rng.randrange(REQUESTS // 10, REQUESTS // 3)


def kept(servers: Servers, program: Path, checker: Path, rng: random.Random, tally: Tally) -> None:
    """failovers that keep what was acknowledged"""
    number = 0
    for _, (data, moment) in zip(range(TRIES), inputs(rng, LOAD)):
        got = servers.fail_over(data, moment, servers.kill)
        told = Kept.of(got)
        tally.check(
            got.status == 0 and told.acknowledged == REQUESTS and told.lost == 0, f"failover {number}: {described(got)}"
        )
        if got.status:
            break
        tally.same(
            f"the history of failover {number}", found(checker, servers.folder, WORKERS, data, got.stdout), ACCEPTED
        )
        tally.check(
            *compared(
                f"failover {number}",
                program_views(program, rows_after(data, got.stdout)),
                servers.ask(VIEWS.read_text()),
            )
        )
        number += told.broken > 0
        if number == FAILOVERS:
            break
    tally.check(number == FAILOVERS, f"{number} failovers, of {FAILOVERS}, came before the last request")


def lost(servers: Servers, _program: Path, checker: Path, rng: random.Random, tally: Tally) -> None:
    """a failover without synchronous replication, and what the referee says of it; and one with it again"""
    servers.three("async")
    for _, (data, moment) in zip(range(TRIES), inputs(rng, LONG)):
        got = servers.fail_over(data, moment, servers.kill_behind)
        verdict = found(checker, servers.folder, WORKERS, data, got.stdout)
        tally.check(
            (verdict == ACCEPTED) == (Kept.of(got).lost == 0), f"asynchronous: {described(got)}, {described(verdict)}"
        )
        if verdict != ACCEPTED:
            break
    tally.check(
        verdict.status == 6 and LOST.fullmatch(verdict.stdout) is not None, f"asynchronous: {described(verdict)}"
    )
    servers.three("sync")
    data, moment = next(inputs(rng, LOAD))
    got = servers.fail_over(data, moment, servers.kill)
    tally.check(Kept.of(got).lost == 0, f"synchronous again: {described(got)}")
    tally.same(
        "the history of synchronous servers", found(checker, servers.folder, WORKERS, data, got.stdout), ACCEPTED
    )


def main() -> None:
    program, checker = two_programs(__doc__)
    tally = Tally()
    if postgres.tools() is None:
        tally.skip("failovers of PostgreSQL", "it is not installed")
        return tally.finish()
    seed = random.randrange(1 << 32)
    print(f"seed {seed}", flush=True)
    rng = random.Random(seed)
    with three_servers() as servers:
        for check in (kept, lost):
            tally.tell(check, servers, program, checker, rng, tally)
    tally.finish()


if __name__ == "__main__":
    main()
