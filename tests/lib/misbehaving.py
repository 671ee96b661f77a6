"""Clients of a front that do not read, hang up or send rubbish, and one that asks all the time
and notes how long it waits."""

import os
import random
import threading
import time
from contextlib import suppress
from pathlib import Path

from lib.fronts import Front, FrontTester, packed

VIEWS = b"VIEWBIDS 0.0\n"


def keep_asking(front: Front, waits: list[float], over: threading.Event) -> None:
    """Notes how long each reply takes, without the time in which others have the processors."""
    threads = [
        f"{pid}/task/{thread}"
        for pid, thread in (
            (os.getpid(), os.getpid()),
            (os.getpid(), threading.get_native_id()),
            *((pid, pid) for pid in (front.process.pid, front.engine())),
        )
    ]
    with front.client() as client:
        while not over.is_set():
            begun, waited = time.monotonic(), without_processor(threads)
            if not client.ask(b"VIEWITEM 0.0")[0].startswith(b"viewitem"):
                return waits.append(float("inf"))
            waits.append(time.monotonic() - begun - without_processor(threads) + waited)


def without_processor(threads: list[str]) -> float:
    """For how many seconds threads could have run and had no processor, if the system tells."""
    with suppress(OSError):
        return sum(int(Path(f"/proc/{thread}/schedstat").read_text().split()[1]) for thread in threads) / 1e9
    return 0


def read_nothing(tester: FrontTester, front: Front, _: random.Random) -> None:
    """Each sends what has 15 MB of replies, and waits until the front takes no more: it leaves
    many requests to the system."""
    left, before = {front.client(receive=4096): VIEWS * 40_000 for _ in range(5)}, front.info()["requests"]
    for client in left:
        client.socket.setblocking(False)
    idle = 0
    with front.client() as other:
        while idle < 50:
            sent = 0
            for client, data in left.items():
                with suppress(BlockingIOError):
                    count = client.socket.send(data[:20_000])
                    left[client], sent = data[count:], sent + count
            # One may be of the client that asks all the time.
            idle = 0 if sent or other.info()["under_way"] > 1 else idle + 1
        taken = other.info()["requests"] - before
    for client in left:
        client.__exit__()
    tester.tally.check(taken < 5 * 40_000, f"the front takes {taken} requests of clients that read nothing")


def hang_up(_: FrontTester, front: Front, draw: random.Random) -> None:
    for _ in range(150):
        with front.client() as client:
            client.send(b"BID 1 0.0 500 5\r\n" * draw.randrange(200) + b"*5\r\n$3\r\nBI"[: draw.randrange(10)])


RUBBISH = (
    b"BID",
    b"ITEM",
    b"1",
    b"0.0",
    b"-1",
    b"007",
    b"\xff",
    b'"',
    b"'",
    b",",
    b"\r",
    b"\n",
    b"\r\n",
    b" ",
    b"*3\r\n",
    b"$3\r\n",
    b"*-1\r\n",
    b"$99999\r\n",
    b"VIEWUSER 3\r\n",
    b"18446744073709551616",
    b"+bid",
    b"\0",
    b"\x0b",
    b"0,bid,1,0.0,10,5\n",
    b"\xe2\x80\xa8",
    b"\xc2\x85",
    packed(b"BID", b"1", b"0.0", b"5\r", b'"') + b"\n",
    b"BID 1 0.0 500 5\n",
)


def send_rubbish(_: FrontTester, front: Front, draw: random.Random) -> None:
    for _ in range(400):
        with front.client() as client, suppress(ConnectionError):
            client.send(b"".join(draw.choices(RUBBISH, k=draw.randrange(1, 30))))
