#!/usr/bin/env python3
"""front.py on several machines: one front leads and serves, and what it replies is in etcd first, synced by most of
its servers.

    examples/front_quorum.py --etcd HOST:2379,HOST:2379,HOST:2379 [--port 7379] [--audit FOLDER] --log FILE
        PROGRAM [OPTION..]

Start one on each machine, and again whenever it ends (systemd: Restart=always), over three servers of etcd (3.4 or
later) that keep nothing else. The front that has the key `leader`, under a lease, writes FILE anew from the rows under
`log/`, and listens; the others wait, so a client tries one after the other, and needs a timeout. If a front dies,
freezes or is cut off, another leads a few seconds later, with all that was acknowledged. This gives availability, not
capacity: one front serves, and each reply waits for etcd, whose quota (2 GB, if it is not set) bounds the log. A front
that can no longer lead ends with status 6, and one whose own log fails with status 8.

An auction with a log goes on from it, once etcd has its rows:

    split -C 64K -d -a 16 auction.rows part. && for part in part.*; do etcdctl put log/${part#part.} < $part; done"""

import argparse
import asyncio
import base64
import json
import os
import sys
import threading
import time
from contextlib import suppress
from http.client import HTTPConnection, HTTPException
from itertools import cycle
from typing import Any, NoReturn

from front.log import fresh_beside
from front.program import Engine, Request, say
from front.server import main, parser, read

LEASE, ANSWER, OUTAGE = 3, 1, 10  # seconds: of the lease, for an answer of a server, and without any answer
MOST_BYTES, MOST_KEYS = 65536, 100  # bytes put at once, and keys read at once
LEADER, STARTS, CLOCK, LOG = b"leader", b"starts", b"clock", b"log/"
NO_LEADER, NO_LOG = 6, 8  # statuses: it leads no longer; its log is not as it was left, or takes no rows
FAULTS = (OSError, HTTPException, ValueError)
# What etcd is asked, and what it answers.
Json = dict[str, Any]


def end(words: object, status: int = NO_LEADER) -> NoReturn:
    """Ends at once: nothing more is released."""
    say(words)
    os._exit(status)


def encoded(data: bytes) -> str:
    return base64.b64encode(data).decode()


def get(key: bytes) -> Json:
    return {"request_range": {"key": encoded(key)}}


def put(key: bytes, value: bytes, **how: Any) -> Json:
    return {"request_put": {"key": encoded(key), "value": encoded(value), **how}}


def is_created_at(revision: str) -> Json:
    """The comparison that holds while the key `leader` is the one of this revision."""
    return {"key": encoded(LEADER), "target": "CREATE", "result": "EQUAL", "create_revision": revision}


class Etcd:
    """A connection to a server of etcd, or to the next one if that does not answer. All that it is asked may be asked
    twice."""

    def __init__(self, addresses: str) -> None:
        self.connections = cycle([HTTPConnection(address, timeout=ANSWER) for address in addresses.split(",")])
        self.connection = next(self.connections)

    def ask(self, path: str, **body: Any) -> Json:
        until = time.monotonic() + OUTAGE
        while True:
            try:
                return self.ask_once(path, body)
            except FAULTS as fault:
                if time.monotonic() > until:
                    end(f"etcd does not answer: {fault}")
            self.connection.close()
            self.connection = next(self.connections)
            time.sleep(0.05)

    def ask_once(self, path: str, body: Json) -> Json:
        self.connection.request("POST", f"/v3/{path}", json.dumps(body))
        response = self.connection.getresponse()
        told = json.loads(response.read())
        if response.status != 200 or "error" in told:
            raise OSError(told)
        return told


class Replicated(Engine):
    """The program of the front that leads. Its replies are held until etcd has the rows before them and says that the
    front leads, whatever clocks say."""

    is_kept, another_log, remedy = False, NO_LOG, "a start writes it anew"

    def __init__(self, asked: argparse.Namespace) -> None:
        super().__init__(asked)
        self.etcd, self.lease, self.is_over = Etcd(asked.etcd), None, threading.Event()
        self.held = []  # replies that wait for etcd
        # The key of the next rows, where these begin in the file, and the time that etcd has.
        self.number = self.at = self.told = 0

    async def ask_etcd(self, path: str, **body: Any) -> Json:
        return await asyncio.to_thread(self.etcd.ask, path, **body)

    async def start(self) -> None:
        if self.lease is None:
            await self.lead()
        self.log.open()
        # A program that died may have left rows. What it replied is released already.
        self.log.take()
        self.putting = asyncio.create_task(self.put_rows(self.log.size))
        await self.putting
        # The version of a key counts how often it was put: starts have numbers over all fronts.
        _, told, clock = await self.as_leader(put(STARTS, b""), get(STARTS), get(CLOCK))
        self.starts = int(told["response_range"]["kvs"][0]["version"]) - 1
        for pair in clock["response_range"].get("kvs", ()):
            self.clock.last = max(self.clock.last, int(base64.b64decode(pair["value"])))
        await super().start()

    async def lead(self) -> None:
        """Waits until this front leads."""
        say("waits until it leads")
        self.lease = (await self.ask_etcd("lease/grant", TTL=LEASE))["ID"]
        threading.Thread(target=self.hold, daemon=True).start()
        while (leader := await self.leader())["lease"] != self.lease:
            if self.is_stopping:
                sys.exit()
            await asyncio.sleep(LEASE / 4)
        self.leads = is_created_at(leader["create_revision"])
        await self.write_log()
        say(f"leads, with {self.at} bytes of rows")

    async def leader(self) -> Json:
        """The key of the front that leads: of this one, if there was none."""
        own = put(LEADER, f"{self.asked.host}:{self.asked.port}".encode(), lease=self.lease)
        told = await self.ask_etcd(
            "kv/txn", compare=[is_created_at("0")], success=[own, get(LEADER)], failure=[get(LEADER)]
        )
        return told["responses"][-1]["response_range"]["kvs"][0]

    def hold(self) -> None:
        """Keeps the lease, in a thread of its own, since a start with many rows takes its time."""
        etcd = Etcd(self.asked.etcd)
        while not self.is_over.wait(LEASE / 4):
            if "TTL" not in etcd.ask("lease/keepalive", ID=self.lease)["result"]:
                end("the lease is over")

    async def write_log(self) -> None:
        """Writes the log anew: rows that only it has were never acknowledged. The program of a front that was killed
        may still be writing the old file."""
        log, more = self.asked.log, True
        fresh = fresh_beside(log)
        with fresh.open("xb") as file:
            while more:
                first, beyond = encoded(LOG + b"%016d" % self.number), encoded(LOG + b":")
                told = await self.ask_etcd("kv/range", key=first, range_end=beyond, limit=MOST_KEYS)
                for pair in told.get("kvs", ()):
                    file.write(base64.b64decode(pair["value"]))
                    self.number = 1 + int(base64.b64decode(pair["key"]).removeprefix(LOG))
                more = told.get("more")
            self.at = self.log.size = file.tell()
        if not self.at and log.exists() and log.stat().st_size:
            raise OSError(f"{log} has rows, and etcd has none")
        fresh.replace(log)

    async def as_leader(self, *operations: Json) -> list[Json]:
        """Does them all if this front still leads."""
        told = await self.ask_etcd("kv/txn", compare=[self.leads], success=operations)
        if not told.get("succeeded"):
            end("this front leads no longer")
        return told["responses"]

    async def put_rows(self, size: int) -> None:
        """Puts the rows that so many bytes of the file have and etcd has not; if there are none, it asks whether this
        front leads. Behind the rows of parts that were replied to there may be rows that the program takes back."""
        while True:
            data = os.pread(self.log.file.fileno(), min(MOST_BYTES, size - self.at), self.at)
            rows = data[: data.rfind(b"\n") + 1]
            if not rows and self.at < size:
                end("the log is shorter than what etcd has, or was to have, of it", NO_LOG)
            await self.put(rows)
            if self.at == size:
                return

    async def put(self, rows: bytes) -> None:
        """Puts rows, with the greatest time that was given to requests."""
        time = self.clock.last
        puts = [put(LOG + b"%016d" % self.number, rows)] if rows else [get(LEADER)]
        await self.as_leader(*puts, *([put(CLOCK, b"%d" % time)] if time > self.told else []))
        self.number, self.at, self.told = self.number + bool(rows), self.at + len(rows), time

    def release(self, lines: list[bytes], requests: list[Request]) -> None:
        self.held.append((lines, requests))
        if self.putting.done():
            self.putting = asyncio.create_task(self.release_held())

    async def release_held(self) -> None:
        """Releases what is held, and what comes meanwhile, each time after a put."""
        while self.held:
            held, self.held = self.held, []
            try:
                await self.put_rows(self.log.size)
                for lines, requests in held:
                    super().release(lines, requests)
            except (LookupError, OSError, ValueError) as fault:
                end(repr(fault))

    def connection_lost(self, fault: Exception | None) -> None:
        """The program has ended, once all that it replied is released."""
        ended = super().connection_lost
        self.putting.add_done_callback(lambda _: ended(fault))

    async def settled(self) -> bytes:
        """A front whose log fails lets another lead, on a disk of its own."""
        if self.fault:
            await self.revoke()
            end(f"the log {self.fault.decode()}", NO_LOG)
        return await super().settled()

    async def go_on(self) -> int:
        """Lets the next front lead at once when this one is stopped."""
        status = await super().go_on()
        await self.revoke()
        return status

    async def revoke(self) -> None:
        self.is_over.set()
        with suppress(*FAULTS):
            await asyncio.to_thread(self.etcd.ask_once, "lease/revoke", {"ID": self.lease})


def arguments() -> argparse.Namespace:
    words = parser(__doc__)
    words.add_argument(
        "--etcd", metavar="HOST:PORT,..", default="127.0.0.1:2379", help="the servers of etcd [default: 127.0.0.1:2379]"
    )
    asked = read(words)
    if asked.log is None:
        words.error("--log FILE is needed")
    try:
        Etcd(asked.etcd)
    except HTTPException as fault:
        words.error(f"--etcd {asked.etcd}: {fault}")
    return asked


if __name__ == "__main__":
    main(Replicated, arguments())
