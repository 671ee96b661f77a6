"""Clients that bid on one item, each bid at a time of its own, and what they are told: held against a log, it shows
whether a bid was lost, done twice or done although it was refused."""

import re
import threading
import time
from contextlib import suppress
from itertools import count
from typing import Callable

from lib.fronts import Client
from lib.program import Tally

NOT_DONE = b"-ERR not done: "
VASE = b"ITEM 1 2 Vase 10 99999999999999 1"
BID = re.compile(rb"bid \d+\.\d+")
ROW = re.compile(rb"(\d+),\+bid,1,0\.0,500,(\d+)")


class Bidders:
    """They go on until they are stopped, and connect again whenever they are cut off."""

    def __init__(self, connect: Callable[[], Client], clients: int = 24) -> None:
        self.connect, self.times, self.is_over = connect, count(1000), threading.Event()
        # The ids of bids that were acknowledged, by their times, and the times of those that were refused; views, and
        # other replies.
        self.acknowledged: dict[int, bytes] = {}
        self.not_done: set[int] = set()
        self.views, self.others = 0, []
        self.lock = threading.Lock()
        self.threads = [threading.Thread(target=self.bid, daemon=True) for _ in range(clients)]

    def __enter__(self) -> "Bidders":
        for thread in self.threads:
            thread.start()
        return self

    def __exit__(self, *_: object) -> None:
        self.is_over.set()
        for thread in self.threads:
            thread.join()

    def bid(self) -> None:
        while not self.is_over.is_set():
            with suppress(OSError), self.connect() as client:
                while not self.is_over.is_set() and self.ask(client):
                    pass
            time.sleep(0.05)

    def ask(self, client: Client) -> bool:
        """A bid and a view. Whether there were replies."""
        with self.lock:
            at = next(self.times)
        client.send(b"BID 1 0.0 500 %d\nVIEWITEM 0.0\n" % at)
        told, seen = client.reply(), client.reply()
        with self.lock:
            if BID.fullmatch(told):
                self.acknowledged[at] = told
            elif told.startswith(NOT_DONE):
                self.not_done.add(at)
            elif told:
                self.others.append(told)
            self.views += seen.startswith(b"viewitem")
        return bool(seen)

    def judge(self, tally: Tally, what: str, log: bytes) -> None:
        """The log has each bid that was acknowledged, once and with its id, and none that was refused."""
        serials: dict[bytes, count] = {}
        rows = [match for line in log.splitlines() if (match := ROW.fullmatch(line))]
        ids = [b"bid %b.%d" % (row[1], next(serials.setdefault(row[1], count()))) for row in rows]
        times = [int(row[2]) for row in rows]
        kept = dict(zip(times, ids))
        lost = [at for at, told in self.acknowledged.items() if kept.get(at) != told]
        done = [at for at in self.not_done if at in kept]
        tally.check(
            bool(self.acknowledged) and not lost and not done and len(kept) == len(times),
            f"{what}: of {len(self.acknowledged)} acknowledged bids {len(lost)} are lost or have another id, of"
            f" {len(self.not_done)} refused {len(done)} are done, {len(times) - len(kept)} are done twice: {lost[:3]}",
        )
