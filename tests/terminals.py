#!/usr/bin/env python3
"""Shows what the built programs say on a terminal beside their output, as docs/FORMATS.md says: what they wait for, and
how much the auction has read.

    tests/terminals.py [PROGRAM [CHECKER]] [--only CHECK]

Each end of a program is a pseudo terminal or a pipe. What a terminal is told is kept with the times.
"""

import fcntl
import os
import re
import select
import stat
import sys
import termios
import threading
import time
from argparse import Namespace
from contextlib import contextmanager, suppress
from dataclasses import dataclass, field
from pathlib import Path
from subprocess import PIPE, Popen
from typing import Any, Iterable, Iterator

from lib.checks import SEEN, VIEW, Tester, make_all
from lib.model import Options, expected
from lib.program import SECONDS, Tally, build_shim, built, executable, parser_of, run

END_OF_INPUT = b"\x04"
AWAITS = "{}: reads rows and scripts from the terminal until Ctrl-D; --help lists the options\n"
NOTE = re.compile(rb"rubis_auction: (\d+) KB (read(?:, performing)?)\n")
# So many parts, so far apart, take more than three seconds.
PARTS, PAUSE = 14, 0.25


@dataclass
class Screen:
    """What a terminal shows, each write with the seconds since the program began."""

    begun: float = field(default_factory=time.monotonic)
    writes: list[tuple[float, bytes]] = field(default_factory=list)

    def text(self) -> bytes:
        return b"".join(text for _, text in self.writes)

    def notes(self) -> list[tuple[float, int, bytes]]:
        """The notes, each with the time at which it was there, its count and its words."""
        lines = ((at, NOTE.fullmatch(line)) for at, text in self.writes for line in text.splitlines(keepends=True))
        return [(at, int(note[1]), note[2]) for at, note in lines if note]


@dataclass
class Ended:
    """A program that has ended: its status, its output if that was no terminal, and the screen."""

    status: int
    output: bytes
    screen: Screen


class TerminalTester(Tester):
    """Judges what the programs say on a terminal."""

    def __init__(self, asked: Namespace, folder: Path, tally: Tally) -> None:
        super().__init__(folder, tally)
        self.auction, self.checker = asked.program, asked.checker
        self.history = folder / "history"
        self.history.write_bytes(b"0 0 0 0 " + SEEN)

    def checking(self, history: Path | None = None) -> list:
        return [self.checker, "--history", history or self.history]

    def shows(self, what: str, ended: Ended, status: int, output: bytes, screen: bytes) -> None:
        """A program ended with this status and output, and the terminal shows this."""
        got = (ended.status, ended.output, ended.screen.text())
        self.tally.check(got == (status, output, screen), f"{what}: got {got}")

    def notes_are_due(self, what: str, screen: Screen, size: int) -> None:
        """Notes are there after one second, two, four and so on, and one is of the end of so many bytes."""
        *regular, (_, last, words) = screen.notes()
        times, counts = [at for at, _, _ in regular], [count for _, count, _ in regular]
        self.tally.check(
            len(times) >= 2 and all(at >= 2**count for count, at in enumerate(times)), f"{what}: notes at {times}"
        )
        self.tally.check(
            counts == sorted(counts) and {words for _, _, words in regular} == {b"read"}, f"{what}: notes {regular}"
        )
        self.tally.check((last, words) == (size // 1000, b"read, performing"), f"{what}: {last} KB {words} of {size}")


# A program whose ends are terminals or pipes.


@contextmanager
def terminal() -> Iterator[tuple[int, int]]:
    """A terminal that shows what is written as it is, and not what is typed: the end of the
    user and that of the program."""
    user, program = os.openpty()
    modes = termios.tcgetattr(program)
    modes[1] &= ~termios.OPOST
    modes[3] &= ~termios.ECHO
    termios.tcsetattr(program, termios.TCSANOW, modes)
    try:
        yield user, program
    finally:
        os.close(user)


def perform(
    command: list,
    parts: Iterable[bytes],
    typed: bool = False,
    shared: bool = False,
    screen: Screen | None = None,
    **how: Any,
) -> Ended:
    """Runs a command with a terminal as standard error, and also as standard input, where the parts are `typed`, and
    as output, if it is `shared`."""
    with terminal() as (user, program):
        screen = screen or Screen()
        ends = {"stdin": program if typed else PIPE, "stdout": program if shared else PIPE, "stderr": program} | how
        with Popen([os.fspath(word) for word in command], start_new_session=True, **ends) as process:
            os.close(program)
            output: list[bytes] = []
            threads = [threading.Thread(target=watch, args=(user, screen))]
            if not shared:
                threads.append(threading.Thread(target=lambda: output.append(process.stdout.read())))
            for thread in threads:
                thread.start()
            give(user if typed else process.stdin.fileno(), parts)
            if not typed:
                process.stdin.close()
            for thread in threads:
                thread.join()
            return Ended(process.wait(), b"".join(output), screen)


def watch(user: int, screen: Screen) -> None:
    """Keeps what a terminal shows until nobody writes to it."""
    while True:
        try:
            text = os.read(user, 1 << 16)
        except OSError:
            return
        if not text:
            return
        screen.writes.append((time.monotonic() - screen.begun, text))


def give(file: int, parts: Iterable[bytes]) -> None:
    """Writes parts, each once a pipe has given all that came before, until nobody reads them."""
    with suppress(BrokenPipeError):
        for part in parts:
            while part:
                part = part[os.write(file, part) :]
            wait_taken(file)


def wait_taken(file: int) -> None:
    """Waits until a pipe is empty, or nobody reads it."""
    readers = select.poll()
    readers.register(file, 0)
    while stat.S_ISFIFO(os.fstat(file).st_mode) and held_by(file) and not readers.poll(0):
        time.sleep(0.01)


def held_by(pipe: int) -> int:
    """How many bytes a pipe holds."""
    return int.from_bytes(fcntl.ioctl(pipe, termios.FIONREAD, bytes(4)), sys.byteorder)


def slowly(parts: Iterable[bytes]) -> Iterator[bytes]:
    """Parts with pauses before each: a program that has one of them, however late, has the next one a pause later."""
    for part in parts:
        time.sleep(PAUSE)
        yield part


# What they wait for.


def awaited(tester: TerminalTester) -> None:
    """rows and scripts from a terminal: one line says what is read, before anything is typed"""
    log = tester.folder / "log"
    for words in ([], ["--live", "1"], ["--log", log], ["--live", "1", "--log", log]):
        log.unlink(missing_ok=True)
        ended = perform([tester.auction, *words], [VIEW, END_OF_INPUT], typed=True)
        tester.shows(f"{words} on a terminal", ended, 0, b"0,0," + SEEN, AWAITS.format("rubis_auction").encode())
    ended = perform(tester.checking(), [VIEW, END_OF_INPUT], typed=True)
    tester.shows("rubis_check on a terminal", ended, 0, b"the history replays\n", AWAITS.format("rubis_check").encode())
    for name, command, text in (
        ("rubis_auction", [tester.auction], b"0,0," + SEEN),
        ("rubis_check", tester.checking(), b"the history replays\n"),
    ):
        ended = perform(command, [VIEW, END_OF_INPUT], typed=True, shared=True)
        tester.shows(f"{name} with its output on the terminal", ended, 0, b"", AWAITS.format(name).encode() + text)
    screen, told, line = Screen(), [], AWAITS.format("rubis_auction").encode()
    ended = perform(
        [tester.auction],
        once_told(line, screen, told, slowly([*[VIEW] * PARTS, END_OF_INPUT])),
        typed=True,
        screen=screen,
    )
    tester.tally.check(ended.screen.text() == line, "notes are written over what a user types")
    tester.tally.check(told == [line], f"what a terminal shows before anything is typed: {told}")


def once_told(line: bytes, screen: Screen, told: list[bytes], parts: Iterable[bytes]) -> Iterator[bytes]:
    """Parts that come once a screen shows a line, or does not for too long. What it shows then is told."""
    until = time.monotonic() + SECONDS
    while line not in screen.text() and time.monotonic() < until:
        time.sleep(0.01)
    told.append(screen.text())
    yield from parts


def unawaited(tester: TerminalTester) -> None:
    """nothing is said if standard input is a pipe, the words have a fault, help is asked for, or nobody sees it"""
    for command, text in (([tester.auction], b"0,0," + SEEN), (tester.checking(), b"the history replays\n")):
        tester.shows(f"{command[0].name} with a pipe", perform(command, [VIEW]), 0, text, b"")
        for word, status in (("--help", 0), ("--nothing", 1)):
            ended = perform([*command, word], [], typed=True)
            wanted = run([*command, word])
            tester.shows(f"{command[0].name} {word}", ended, wanted.status, wanted.stdout, wanted.stderr)
        with terminal() as (user, program):
            os.write(user, VIEW + END_OF_INPUT)
            got = run(command, program)
            os.close(program)
        tester.tally.check(
            (got.status, got.stdout, got.stderr) == (0, text, b""),
            f"{command[0].name} on a terminal, its errors in a pipe: {got}",
        )
    missing = tester.folder / "missing"
    wanted = run(tester.checking(missing))
    tester.shows("no such history", perform(tester.checking(missing), [], typed=True), 2, b"", wanted.stderr)
    log = tester.folder / "folder"
    log.mkdir()
    wanted = run([tester.auction, "--log", log])
    tester.shows("no log", perform([tester.auction, "--log", log], [], typed=True), 5, b"", wanted.stderr)


# How far the auction is.


def slow_inputs(tester: TerminalTester) -> None:
    """slow input: notes of the bytes read; a short input has none"""
    data = VIEW * 100
    replies = expected(data * PARTS, Options()).stdout
    log = tester.folder / "slow"
    for words in ([], ["--log", log]):
        ended = perform([tester.auction, *words], slowly([data] * PARTS))
        tester.tally.check((ended.status, ended.output) == (0, replies), f"{words}: the replies to a slow input")
        tester.notes_are_due(f"{words}, slow input", ended.screen, len(data) * PARTS)
    tester.shows("a short input", perform([tester.auction], [data]), 0, expected(data, Options()).stdout, b"")


def shared_terminals(tester: TerminalTester) -> None:
    """output on the terminal of the notes comes after them, and so does a fault"""
    data = VIEW * PARTS
    ended = perform([tester.auction], slowly([VIEW] * PARTS), shared=True)
    shown = ended.screen.text()
    tester.tally.check(
        len(ended.screen.notes()) > 1 and shown.endswith(b", performing\n" + expected(data, Options()).stdout),
        f"replies on the terminal: {shown}",
    )
    ended = perform([tester.auction], slowly([*[VIEW] * PARTS, b"0,jump,1\n"]))
    shown, fault = ended.screen.text(), b"rubis_auction: record %d: unknown kind\n" % (PARTS + 1)
    tester.tally.check(
        (ended.status, ended.output) == (2, b"") and shown.endswith(b" read\n" + fault), f"a fault after notes: {ended}"
    )


def live_replies(tester: TerminalTester) -> None:
    """no notes with --live"""
    ended = perform([tester.auction, "--live", "1"], slowly([VIEW] * PARTS))
    tester.shows("slow input with --live", ended, 0, b"".join(b"0,%d,%s" % (at, SEEN) for at in range(PARTS)), b"")


def clocks(tester: TerminalTester) -> None:
    """a clock that cannot be read: no notes; and it is not read if standard error is no terminal"""
    shim = build_shim("refused_calls", tester.folder)
    if shim is None:
        return tester.tally.skip(clocks.__doc__, "there is no C compiler")
    environment = os.environ | {"LD_PRELOAD": str(shim)}
    ended = perform([tester.auction], slowly([VIEW] * PARTS), env=environment | {"CLOCK_FAILS": "1"})
    tester.shows("no clock", ended, 0, expected(VIEW * PARTS, Options()).stdout, b"")
    got = run([tester.auction], VIEW, env=environment | {"CLOCK_ENDS": "1"})
    tester.tally.same("rubis_auction without a terminal", got, run([tester.auction], VIEW))
    ended = perform([tester.auction], [VIEW], env=environment | {"CLOCK_ENDS": "1"})
    tester.tally.check(ended.status != 0, "the clock is seen to be read: rubis_auction on a terminal")


CHECKS = (awaited, unawaited, slow_inputs, shared_terminals, live_replies, clocks)


def main() -> None:
    words = parser_of(__doc__)
    for word, name in (("program", "rubis_auction"), ("checker", "rubis_check")):
        words.add_argument(word, nargs="?", type=executable, default=str(built(name)))
    make_all(words, CHECKS, TerminalTester)


if __name__ == "__main__":
    main()
