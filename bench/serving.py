"""Requests that come while others are answered, for bench/run: how long a reply takes, how many are answered a second,
and what memory it takes, of the program with `--live` and `--log`, of Redis and of PostgreSQL with its log on."""
import os
import subprocess
import time
from typing import Callable, Iterable

import loads
import programs
import redis_server

# So many requests are sent to Redis before their replies are read.
PIPELINE = 1000

ITEM, VIEW = b"0,+item,0,0,Vase,1,2,1,1\n", b"0,viewitem,0.0\n"


def part(spent: list[float], share: float) -> float:
    """Of sorted times the one that so much of them are not above."""
    return spent[int(share * (len(spent) - 1))]


def anew(log: str | None) -> list[str]:
    """The words for a log that is empty, or none."""
    if log is None:
        return []
    if os.path.exists(log):
        os.unlink(log)
    return ["--log", log]


def timed(ask: Callable[[bytes], object], requests: Iterable[bytes]) -> list[float]:
    """The microseconds of each call, sorted."""
    spent = []
    for request in requests:
        begun = time.perf_counter_ns()
        ask(request)
        spent.append((time.perf_counter_ns() - begun) / 1e3)
    return sorted(spent)


def records_of(path: str) -> tuple[list[bytes], list[bytes]]:
    """A load's rows and requests, each a line."""
    with open(path, "rb") as text:
        lines = text.readlines()
    is_row = (line.split(b",", 2)[1].startswith(b"+") for line in lines)
    rows = next((at for at, found in enumerate(is_row) if not found), len(lines))
    return lines[:rows], lines[rows:]


def session(words: list[str], path: str, log: str | None) -> list[float]:
    """Of a client that waits for each reply, the microseconds of each, sorted."""
    rows, requests = records_of(path)
    process = subprocess.Popen([*words, *anew(log)], stdin=subprocess.PIPE, stdout=subprocess.PIPE, bufsize=0)
    given, taken = process.stdin.fileno(), process.stdout.fileno()

    def ask(request: bytes) -> None:
        os.write(given, request)
        if not os.read(taken, 1 << 16).endswith(b"\n"):
            raise SystemExit(f"{' '.join(words)}: no reply to {request!r}")

    os.write(given, b"".join(rows))
    ask(VIEW)
    spent = timed(ask, requests)
    end_input(process, words)
    process.stdout.close()
    return spent


def end_input(process: subprocess.Popen, words: list[str]) -> None:
    """Ends the input of a command, which is to end well then."""
    process.stdin.close()
    if process.wait() != 0:
        raise SystemExit(f"{' '.join(words)}: status {process.returncode}")


def whole(words: list[str], path: str, log: str | None) -> programs.Use:
    """What a whole command over a file took."""
    return programs.whole_of([*words, *anew(log)], path)


def opening(words: list[str], rows: bytes, log: str) -> float:
    """The seconds of a start with a log of these rows, to its first reply."""
    with open(log, "wb") as text:
        text.write(rows)
    begun = time.perf_counter()
    subprocess.run([*words, "--log", log], input=VIEW, stdout=subprocess.DEVNULL, check=True)
    return time.perf_counter() - begun


def memory_of_views(words: list[str], count: int) -> float:
    """The megabytes that a command has had at most once it has answered so many views of an item."""
    process = subprocess.Popen(words, stdin=subprocess.PIPE, stdout=subprocess.DEVNULL)
    process.stdin.write(ITEM)
    for _ in range(count // 1000):
        process.stdin.write(VIEW * 1000)
    process.stdin.flush()
    # What is in the pipe is answered meanwhile.
    time.sleep(0.5)
    megabytes = programs.peak_memory(process.pid)
    end_input(process, words)
    return megabytes


def redis_session(is_logged: bool, path: str) -> list[float]:
    """What `session` gives, of Redis."""
    rows, (requests,) = loads.read_load(path, 1)
    with redis_server.Server(is_logged) as server:
        server.open(rows)
        return timed(server.ask_packed, [server.command(request) for request in requests])


def redis_whole(is_logged: bool, path: str) -> float:
    """The seconds in which Redis answers the requests of a file, of which so many are sent before their replies are
    read."""
    rows, (requests,) = loads.read_load(path, 1)
    with redis_server.Server(is_logged) as server:
        server.open(rows)
        commands = [server.command(request) for request in requests]
        begun = time.perf_counter()
        for at in range(0, len(commands), PIPELINE):
            block = commands[at : at + PIPELINE]
            server.socket.sendall(b"".join(block))
            server.pass_by(len(block))
        return time.perf_counter() - begun


def redis_replies(path: str) -> str:
    """The replies of Redis to a load of one worker, as the program writes them."""
    rows, (requests,) = loads.read_load(path, 1)
    with redis_server.Server(False) as server:
        server.open(rows)
        replies = [server.ask_packed(server.command(request)) for request in requests]
    return "".join(f"0,{index},{reply}\n" for index, reply in enumerate(replies))
