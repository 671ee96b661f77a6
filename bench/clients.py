"""Many clients of a server, for bench/run: bids on one item that redis-benchmark sends to examples/front.py over the
program, and to Redis."""
import csv
import re
import shutil
import socket
import subprocess
import sys
import tempfile
from typing import NamedTuple

import loads
import redis_server
from programs import ROOT

BENCHMARK, FRONT = "redis-benchmark", f"{ROOT}/examples/front.py"
# Of the program under the front.
WORKERS = 4

# The item that all bid on, as a row of a log and as a request.
ROW = '0,+item,0,0,"Vase",1,100000000,1,1000000\n'
ITEM = ("ITEM", "0", "0", "Vase", "1", "100000000", "1", "1000000")


class Way(NamedTuple):
    """How many clients there are, how many requests of each are under way, and how many are sent in all."""

    clients: int
    pipeline: int
    requests: int

    def name(self) -> str:
        pipelines = f", pipelines of {self.pipeline}" * (self.pipeline > 1)
        return f"{self.clients} client{'s' * (self.clients > 1)}{pipelines}"


WAYS = (Way(1, 1, 10_000), Way(16, 1, 50_000), Way(100, 1, 60_000), Way(100, 16, 200_000))


class Found(NamedTuple):
    """What redis-benchmark tells: requests a second, and milliseconds until a reply."""

    rate: float
    median: float
    late: float


def are_there() -> bool:
    return redis_server.is_there() and shutil.which(BENCHMARK) is not None


def load(server: "Front | Redis", way: Way) -> Found:
    """One load of a server: each client waits for its replies before it sends more."""
    numbers = {"-p": server.port, "-c": way.clients, "-P": way.pipeline, "-n": way.requests}
    words = [str(word) for pair in numbers.items() for word in pair]
    command = [BENCHMARK, *words, "--csv", *server.bid]
    said = subprocess.run(command, capture_output=True, text=True, check=True).stdout
    told = next(csv.DictReader(line for line in said.splitlines() if line.startswith('"')))
    return Found(*(float(told[name]) for name in ("rps", "p50_latency_ms", "p99_latency_ms")))


class Front:
    """examples/front.py over the program, with the item, as long as a `with` over it. Its log, if it has one, is synced
    before each reply."""

    bid = ("BID", "1", "0.0", "500", "5")

    def __init__(self, program: str, folder: str, is_logged: bool) -> None:
        # In a folder of its own, since the front keeps files beside it.
        self.log = f"{tempfile.mkdtemp(dir=folder)}/log" if is_logged else None
        words = ["--port", "0", "--workers", str(WORKERS), *(["--log", self.log] if self.log else [])]
        self.words = [sys.executable, "-B", FRONT, *words, program, "--fast"]

    def __enter__(self) -> "Front":
        if self.log:
            write_row(self.log)
        self.process = subprocess.Popen(self.words, stderr=subprocess.PIPE, text=True)
        self.port = int(re.search(r", (\d+)\)", self.process.stderr.readline())[1])
        if not self.log:
            self.put_up_the_item()
        return self

    def put_up_the_item(self) -> None:
        with socket.create_connection(("127.0.0.1", self.port)) as client:
            client.sendall(redis_server.packed(*ITEM))
            if not client.recv(100).startswith(b"$8\r\nitem 0.0"):
                raise SystemExit(f"{FRONT}: no item")

    def __exit__(self, *_: object) -> None:
        self.process.terminate()
        self.process.communicate()


class Redis(redis_server.Server):
    """Redis with the item, as long as a `with` over it; a bid is a call of its script."""

    def __init__(self, _: str, folder: str, is_logged: bool) -> None:
        super().__init__(is_logged)
        self.row = f"{folder}/row"

    def __enter__(self) -> "Redis":
        super().__enter__()
        write_row(self.row)
        self.open(loads.read_load(self.row, 1)[0])
        self.port = self.socket.getpeername()[1]
        self.bid = ("EVALSHA", self.script, "0", "bid", "0.0", "1", "500", "5")
        return self


def write_row(path: str) -> None:
    with open(path, "w") as text:
        text.write(ROW)
