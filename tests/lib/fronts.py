"""A front of examples/front.py over the program, and a client of it."""

import os
import re
import shlex
import signal
import socket
import subprocess
import sys
from argparse import Namespace
from contextlib import contextmanager, suppress
from pathlib import Path
from typing import Any, Iterator

import load
from lib.checks import AuctionTester
from lib.program import EXAMPLES, Tally
from lib.sessions import SECONDS, wait_until

FRONT = [sys.executable, "-B", str(EXAMPLES / "front.py")]
WORKERS, MEGABYTES = 4, 50
# Replies of the front, and one of a view.
PROTOCOL, FULL, ENDS = (
    b"-ERR Protocol error",
    b"-ERR max number of clients reached",
    b"-ERR the auction ends",
)
UNKNOWN = b"-UNKNOWN whether this was done: the auction ended before its reply"
SEEN = b"user rating=0 comments=0"


class FrontTester(AuctionTester):
    """Also knows the referee. Fronts that were started end with it."""

    def __init__(self, asked: Namespace, folder: Path, tally: Tally) -> None:
        super().__init__(asked, folder, tally)
        self.referee = asked.check

    def close(self) -> None:
        for process in Front.started:
            process.kill()


class Front:
    """A front over the program, with a log and with what the referee judges of it."""

    started: list[subprocess.Popen] = []

    def __init__(
        self,
        tester: FrontTester,
        name: str,
        *words: str,
        rows: bytes = b"",
        log: Path | None = None,
        waits: bool = True,
        program: Path | None = None,
        script: list[str] = FRONT,
        has_audit: bool = True,
        **how: Any,
    ) -> None:
        self.folder = tester.folder / name
        self.folder.mkdir()
        self.log, self.audit, self.said = log or self.folder / "rows", self.folder / "audit", self.folder / "said"
        if log is None:
            self.log.write_bytes(rows)
        audit = ("--audit", str(self.audit)) if has_audit else ()
        served = (str(program or tester.program), "--fast")
        self.script, self.words = script, ["--log", str(self.log), *audit, "--workers", str(WORKERS), *words, *served]
        self.port, self.how = 0, how
        self.start()
        if waits:
            wait_until(lambda: self.process.poll() is not None or self.is_there())

    def is_there(self) -> bool:
        """Whether it serves. Then its port is known."""
        found = re.search(r"serves at \('127.0.0.1', (\d+)\)", self.said.read_text())
        self.port = int(found[1]) if found else 0
        return found is not None

    def serves_again(self) -> bool:
        """Whether it serves, or has ended, after another start."""
        return self.process.poll() is not None or b"serves at" in self.said.read_bytes()[self.began_at :]

    def start(self) -> None:
        place = ("--port", str(self.port))
        with self.said.open("ab") as said:
            self.began_at = said.tell()
            self.process = subprocess.Popen([*self.script, *place, *self.words], stderr=said, **self.how)
        self.started.append(self.process)

    def engine(self) -> int:
        """The program's process."""
        for stat in Path("/proc").glob("[0-9]*/stat"):
            with suppress(OSError):
                pid, parent = re.match(r"(\d+) \(.*\) \S (\d+)", stat.read_text()).groups()
                if int(parent) == self.process.pid:
                    return int(pid)
        return 0

    def kill_engine(self) -> None:
        with suppress(ProcessLookupError):
            if engine := self.engine():
                os.kill(engine, signal.SIGKILL)

    def kill(self) -> None:
        """Kills the front, and starts it again, as systemd does."""
        self.process.kill()
        self.process.wait()
        self.start()

    @contextmanager
    def held(self) -> Iterator[int]:
        """The program does nothing meanwhile."""
        engine = self.engine()
        os.kill(engine, signal.SIGSTOP)
        try:
            yield engine
        finally:
            with suppress(ProcessLookupError):
                os.kill(engine, signal.SIGCONT)

    def close(self) -> int:
        self.process.terminate()
        return self.process.wait(SECONDS)

    def most_megabytes(self) -> float:
        return int(re.search(r"VmHWM:\s+(\d+)", Path(f"/proc/{self.process.pid}/status").read_text())[1]) * 1024 / 1e6

    def client(self, **how: Any) -> "Client":
        return Client(self.port, **how)

    def info(self) -> dict[str, int | str]:
        with self.client() as client:
            return client.info()


class Client:
    """A client that waits for its replies."""

    def __init__(self, place: int | Path, receive: int = 0) -> None:
        self.socket = socket.socket(socket.AF_UNIX if isinstance(place, Path) else socket.AF_INET)
        self.socket.settimeout(SECONDS)
        if receive:
            self.socket.setsockopt(socket.SOL_SOCKET, socket.SO_RCVBUF, receive)
        self.socket.connect(str(place) if isinstance(place, Path) else ("127.0.0.1", place))
        self.replies = self.socket.makefile("rb")

    def __enter__(self) -> "Client":
        return self

    def __exit__(self, *_: object) -> None:
        self.replies.close()
        self.socket.close()

    def send(self, data: bytes) -> None:
        self.socket.sendall(data)

    def reply(self) -> bytes:
        """The next reply: a text as it is, what is no array as its line, or nothing if the server has closed the
        connection."""
        with suppress(ConnectionError):
            line = self.replies.readline().removesuffix(b"\r\n")
            return self.replies.read(int(line[1:]) + 2)[:-2] if line[:1] == b"$" else line
        return b""

    def ask(self, *commands: bytes) -> list[bytes]:
        self.send(b"".join(command + b"\n" for command in commands))
        return [self.reply() for _ in commands]

    def info(self) -> dict[str, int | str]:
        text = self.ask(b"INFO")[0].decode()
        return {
            name: int(told) if told.isdigit() else told for name, told in (line.split(":") for line in text.split())
        }


def first_client(place: int | Path) -> Client:
    """The first client of a front that is starting, whose socket may not be there or not listen yet."""
    connected: list[Client] = []

    def connects() -> bool:
        with suppress(OSError):
            connected.append(Client(place))
        return bool(connected)

    wait_until(connects)
    return connected[0]


def script(path: Path, text: str) -> Path:
    """A program in the place of the one under test."""
    path.write_text(text)
    path.chmod(0o755)
    return path


def shimmed(tester: FrontTester, name: str, limits: dict[str, int]) -> Path:
    """The program, in which the shim sets limits."""
    words = [f"{limit}={number}" for limit, number in limits.items()]
    text = shlex.join(["exec", "env", f"LD_PRELOAD={tester.shim}", *words, str(tester.program)])
    return script(tester.folder / f"{name}_program", f'#!/bin/sh\n{text} "$@"\n')


def packed(*words: bytes) -> bytes:
    """A command as an array of words, as far as a line goes."""
    return load.packed(words).removesuffix(b"\n")
