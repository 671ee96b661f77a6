#!/usr/bin/env python3
"""Loads examples/front.py with clients that wait for their replies, and tells how many replies a second came, and after
how long.

    examples/load.py [--port 7379] [--clients 100] [--pipeline 1] [--seconds 5] [FILE]

FILE has the requests, as rubis_load writes them; the auction has to have its rows already. Without FILE all clients bid
on item 0.0. The load itself takes a processor: if that is busy, more clients wait longer and show nothing of the
server."""

import asyncio
import csv
import os
import time
from argparse import Namespace
from collections import deque
from pathlib import Path
from typing import Any, Iterable

from command_line import end, parser_of

CLOCK = time.perf_counter_ns


def packed(words: list[bytes]) -> bytes:
    """A command as an array of words."""
    return b"*%d\r\n" % len(words) + b"".join(b"$%d\r\n%s\r\n" % (len(word), word) for word in words)


def commands_of(lines: Iterable[str]) -> list[bytes]:
    """The requests of an input as commands."""
    records = list(filter(None, csv.reader(lines)))
    for record in records:
        if len(record) < 2 or not record[1]:
            end(f"no worker and kind: {','.join(record)}")
    commands = [
        packed([word.encode() for word in (kind.upper(), *fields)]) for _, kind, *fields in records if kind[0] != "+"
    ]
    return commands or end("no requests")


class Client(asyncio.Protocol):
    """A connection that keeps some requests under way: for each reply the next one is sent, until the time is over."""

    def __init__(self, commands: list[bytes], at: int, asked: Namespace) -> None:
        self.commands, self.at, self.asked, self.waits, self.errors = commands, at, asked, [], 0

    async def run(self, **place: Any) -> None:
        loop = asyncio.get_running_loop()
        self.closed = loop.create_future()
        await loop.create_connection(lambda: self, **place)
        await self.closed

    def connection_made(self, transport: asyncio.Transport) -> None:
        self.transport, self.sent, self.rest = transport, deque(), b""
        self.ask(self.asked.pipeline)

    def connection_lost(self, _: Exception | None) -> None:
        self.closed.set_result(None)

    def ask(self, count: int) -> None:
        now = CLOCK()
        if now < self.asked.until:
            self.transport.write(
                b"".join(self.commands[at % len(self.commands)] for at in range(self.at, self.at + count))
            )
            self.at += count
            self.sent.extend([now] * count)
        elif not self.sent:
            self.transport.close()

    def data_received(self, data: bytes) -> None:
        *lines, self.rest = (self.rest + data).split(b"\r\n")
        # Before each text, which is one line, comes its length.
        replies, now = [line for line in lines if line[:1] != b"$"], CLOCK()
        for line in replies:
            self.note(line, self.sent.popleft(), now)
        self.ask(len(replies))

    def note(self, line: bytes, sent: int, now: int) -> None:
        self.waits.append(now - sent)
        self.errors += line[:1] == b"-"


async def drive(clients: list[Client], asked: Namespace, **place: Any) -> float:
    """Runs clients until the time is over, and gives the seconds that they took."""
    begun = CLOCK()
    asked.until = begun + int(asked.seconds * 1e9)
    await asyncio.gather(*(client.run(**place) for client in clients))
    return (CLOCK() - begun) / 1e9


def told(clients: list[Client], seconds: float) -> str:
    waits = sorted(wait for client in clients for wait in client.waits)
    if not waits:
        return "no replies"
    shares = (("p50", 0.5), ("p99", 0.99), ("p99.9", 0.999), ("most", 1))
    times = ", ".join(f"{name} {waits[int(share * (len(waits) - 1))] / 1e6:.3f}" for name, share in shares)
    replies, errors = len(waits), sum(client.errors for client in clients)
    return f"{replies} replies, {errors} errors, {replies / seconds:.0f} a second; milliseconds: {times}"


def main() -> None:
    words = parser_of(__doc__)
    words.add_argument("file", metavar="FILE", nargs="?", type=Path, help="requests [default: bids on item 0.0]")
    words.add_argument("--host", default="127.0.0.1", help="[default: 127.0.0.1]")
    words.add_argument("--port", type=int, default=7379, help="[default: 7379]")
    words.add_argument("--clients", type=int, default=100, help="[default: 100]")
    words.add_argument("--pipeline", type=int, default=1, help="requests of each client under way [default: 1]")
    words.add_argument("--seconds", type=float, default=5, help="[default: 5]")
    asked = words.parse_args()
    if min(asked.clients, asked.pipeline) < 1:
        words.error("--clients and --pipeline are at least 1")
    commands = commands_of(asked.file.read_text().splitlines() if asked.file else ["0,bid,1,0.0,500,*"])
    clients = [Client(commands, number * len(commands) // asked.clients, asked) for number in range(asked.clients)]
    try:
        seconds = asyncio.run(drive(clients, asked, host=asked.host, port=asked.port))
    except (OSError, OverflowError) as fault:
        end(f"no connection to {asked.host}:{asked.port}: {words_of(fault)}")
    print(told(clients, seconds))


def words_of(fault: Exception) -> str | Exception:
    """What the system says of a fault: asyncio has words of its own."""
    number = getattr(fault, "errno", None) or 0
    return os.strerror(number) if number > 0 else getattr(fault, "strerror", None) or fault


if __name__ == "__main__":
    main()
