"""The options and the sockets of a front."""

import argparse
import asyncio
import ipaddress
import os
import resource
import shutil
import signal
import socket
import stat
import sys
from contextlib import suppress
from pathlib import Path
from typing import Any

from front.clients import MOST_CLIENTS, Client
from front.log import Changed
from front.program import Engine, say, say_seldom

OWN_FILES = 32  # those that a front opens for itself, and connections that it refuses
# Options of the program that would spoil what a front reads of it.
NOT_PASSED_ON = ("--rows", "--report", "--faults", "--live", "--history")


def parser(text: str) -> argparse.ArgumentParser:
    words = argparse.ArgumentParser(
        description=text, formatter_class=argparse.RawDescriptionHelpFormatter, usage=argparse.SUPPRESS
    )
    words.add_argument("--host", default="127.0.0.1", help="the address of the server [default: 127.0.0.1]")
    words.add_argument("--port", type=int, default=7379, help="its port, 0 for a free one [default: 7379]")
    words.add_argument("--unix", metavar="PATH", type=Path, help="a socket of the file system instead")
    words.add_argument(
        "--password", metavar="WORD", help="what AUTH has to give; @FILE for the first line of a file [default: none]"
    )
    words.add_argument(
        "--idle", metavar="SECONDS", type=float, default=0, help="end a client of which so long nothing comes, 0: never"
    )
    words.add_argument(
        "--workers", type=int, metavar="N", default=4, help="workers of the program, 1 to 16 [default: 4]"
    )
    words.add_argument(
        "--log", metavar="FILE", type=Path, help="the program's log; without one the server ends with the program"
    )
    words.add_argument("--audit", metavar="FOLDER", type=Path, help="keep there what rubis_check judges")
    words.add_argument("program", metavar="PROGRAM", help="rubis_auction, with its folder if that is not on the path")
    words.add_argument("options", metavar="OPTION", nargs=argparse.REMAINDER, help="options of it")
    return words


def read(words: argparse.ArgumentParser) -> argparse.Namespace:
    """What is asked for. --log and --workers may stand behind PROGRAM, too, whose options they are."""
    asked = words.parse_args()
    shared = argparse.ArgumentParser(add_help=False, allow_abbrev=False, usage=argparse.SUPPRESS)
    shared.add_argument("--log", type=Path)
    shared.add_argument("--workers", type=int)
    asked, asked.options = shared.parse_known_args(asked.options, asked)
    for word in asked.options:
        if word.split("=")[0] in NOT_PASSED_ON:
            words.error(f"{word}: not with a front")
    if not asked.host:
        words.error("--host: no address, which would be all of this machine")
    if asked.workers < 1:
        words.error("--workers is at least 1")
    if asked.idle < 0:
        words.error("--idle is not negative")
    if shutil.which(asked.program) is None:
        words.error(f"{asked.program}: no such program; if its folder is not on the path, write that before it")
    asked.password = password_of(words, asked.password)
    return asked


def password_of(words: argparse.ArgumentParser, told: str | None) -> bytes:
    """A password of which a file has the first line is not seen among the words of processes."""
    if told is None:
        return b""
    try:
        password = Path(told[1:]).read_bytes().partition(b"\n")[0] if told[:1] == "@" else os.fsencode(told)
    except OSError as fault:
        words.error(f"--password {told}: {fault.strerror}")
    return password or words.error("--password is empty")


def most_clients() -> int:
    """How many clients the limit on open files lets in, once it is as high as it may be."""
    soft, hard = resource.getrlimit(resource.RLIMIT_NOFILE)
    wanted = MOST_CLIENTS + OWN_FILES
    if soft < wanted:
        soft = wanted if hard == resource.RLIM_INFINITY else min(wanted, hard)
        resource.setrlimit(resource.RLIMIT_NOFILE, (soft, hard))
    most = min(MOST_CLIENTS, soft - OWN_FILES)
    if most < 1:
        raise OSError(f"a limit of {soft} open files (ulimit -n) leaves none for clients")
    if most < MOST_CLIENTS:
        say(f"takes {most} clients, not {MOST_CLIENTS}, since {soft} files may be open (ulimit -n)")
    return most


def free(path: Path) -> None:
    """Refuses a socket at which somebody serves: it would be taken from there."""
    with suppress(FileNotFoundError, ConnectionRefusedError), socket.socket(socket.AF_UNIX) as other:
        if stat.S_ISSOCK(path.stat().st_mode):
            other.connect(str(path))
            raise OSError(f"{path}: another front serves there")


def tell(loop: asyncio.AbstractEventLoop, context: dict[str, Any]) -> None:
    """One line where the system refuses something, such as one connection more."""
    if isinstance(fault := context.get("exception"), OSError):
        return say_seldom(f"{context['message']}: {fault.strerror or fault}")
    return loop.default_exception_handler(context)


def warn(addresses: list[Any], has_password: bool) -> None:
    for address in addresses:
        say(f"serves at {address}")
    if any(isinstance(each, tuple) and not ipaddress.ip_address(each[0]).is_loopback for each in addresses):
        say(
            "the password and all else go over the network as they are"
            if has_password
            else "anyone who can connect can send any command: --password WORD, or --host 127.0.0.1"
        )


async def serve(engine: Engine) -> int:
    """Serves until the engine is not to go on, and gives the status."""
    asked, loop = engine.asked, asyncio.get_running_loop()
    Client.most = most_clients()
    loop.set_exception_handler(tell)
    for number in (signal.SIGINT, signal.SIGTERM):
        loop.add_signal_handler(number, engine.stop)
    if asked.unix:
        free(asked.unix)
    try:
        await engine.start()
    except Changed as fault:
        return engine.status(fault, False)
    if asked.unix:
        server = await loop.create_unix_server(lambda: Client(engine), asked.unix)
        place = asked.unix.stat()
    else:
        server = await loop.create_server(lambda: Client(engine), asked.host, asked.port)
    for each in server.sockets:
        each.setsockopt(socket.SOL_SOCKET, socket.SO_KEEPALIVE, 1)
    warn([each.getsockname() for each in server.sockets], bool(asked.password))
    idle = asyncio.create_task(engine.end_idle(asked.idle)) if asked.idle else None
    status = await engine.go_on()
    if idle:
        idle.cancel()
    server.close()
    if asked.unix and asked.unix.exists() and os.path.samestat(asked.unix.stat(), place):
        asked.unix.unlink()
    await asyncio.sleep(0.2)  # for clients to read their last replies
    return status


def main(kind: type[Engine], asked: argparse.Namespace) -> None:
    try:
        sys.exit(asyncio.run(serve(kind(asked))))
    except (OSError, OverflowError) as fault:
        sys.exit(f"front: {fault}")
