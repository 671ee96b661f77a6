"""The log of a program, as its front sees it, and the clock that the log's times come from."""

import fcntl
import os
import re
import shutil
import stat
import time
from contextlib import suppress
from pathlib import Path
from typing import IO
from zlib import crc32

AHEAD = 1000  # milliseconds for which the clock is kept at once
MOST_OF_A_ROW = 1 << 8  # bytes, and more: 189
MOST_OF_A_PART = 1000 * MOST_OF_A_ROW
LONGEST = 1 << 16  # bytes at the end of a log among which a row begins
BLOCK = 1 << 20  # bytes that are read at once


def sync_folder(path: Path) -> None:
    folder = os.open(path.parent, os.O_RDONLY)
    try:
        os.fsync(folder)
    finally:
        os.close(folder)


def sync(file: IO[bytes]) -> None:
    file.flush()
    os.fsync(file.fileno())


def beside(path: Path, kind: str) -> Path:
    return path.with_name(f"{path.name}.{kind}")


def fresh_beside(path: Path) -> Path:
    """The name of a file that is made, and renamed or removed again, if no front is killed in between."""
    fresh = beside(path, "front-new")
    fresh.unlink(missing_ok=True)
    return fresh


def first_lines(data: bytes, count: int) -> bytes:
    """The first lines that are whole: so many, or fewer if there are no more."""
    *lines, rest = data.split(b"\n", count)
    return data[: len(data) - len(rest)] if lines else b""


class Kept:
    """Numbers in a file of their own, which outlast a front."""

    def __init__(self, path: Path, count: int) -> None:
        # A link is not followed: what it leads to was not meant to be written.
        self.file = os.open(path, os.O_RDWR | os.O_CREAT | os.O_NOFOLLOW | os.O_NONBLOCK, 0o666)
        text = os.read(self.file, LONGEST) if stat.S_ISREG(os.fstat(self.file).st_mode) else b"none"
        if text and not re.fullmatch(rb"(\d{20}[ \n]){%d}" % count, text):
            raise OSError(f"{path} is not of a front")
        self.numbers = [*map(int, text.split())] or [0] * count
        if not text:
            # From now on it has its place on the disk, so that a full one takes it.
            self.write(*self.numbers)
            self.sync()
        sync_folder(path)

    def write(self, *numbers: int) -> None:
        os.pwrite(self.file, b" ".join(b"%020d" % number for number in numbers) + b"\n", 0)

    def sync(self) -> None:
        os.fsync(self.file)


class Changed(OSError):
    """What has become of a log that is not as it was left: whoever goes on with it goes on with another auction."""


class Log:
    """Which file the log is, and how far its rows were told, in bytes and as their sum: none is lost, in this front or,
    as FILE.mark keeps these two, in the next one. A program that finds its log moved, removed or cut ends; the next
    would begin another auction."""

    def __init__(self, path: Path, has_mark: bool) -> None:
        if path.exists() and not path.is_file():
            raise OSError(f"{path} is no regular file")
        self.path, self.file, self.size, self.sum = path, None, 0, 0
        # Where the rows of this start of the program begin, and how many it has told that are not in the sum yet.
        self.begin = self.rows = 0
        self.mark = Kept(beside(path, "mark"), 2) if has_mark else None

    def open(self) -> None:
        """Opens and notes the file that a program starts on, always the same. The first one may make it. It is kept
        open, so that no other file gets its number."""
        size, told = self.mark.numbers if self.mark else (0, 0)
        if self.file is None and size:
            self.need(size)
            self.file = self.path.open("rb")
            self.sum_up(size)
            if self.sum != told:
                raise Changed(f"{self.path} has other rows than were told")
        elif self.file is None:
            self.file = self.path.open("ab+")
        self.look()
        # The program takes a cut row off.
        last = max(0, self.measured() - LONGEST)
        self.begin, self.rows = last + os.pread(self.file.fileno(), LONGEST, last).rfind(b"\n") + 1, 0

    def look(self) -> None:
        """Whether its name leads to it, and it has all that was told."""
        self.need(self.size)

    def need(self, size: int) -> None:
        if (there := self.measured()) < size:
            raise Changed(f"{self.path} has {there} bytes of {size}")

    def take(self) -> None:
        """Before replies are released: all rows that they tell of are there, and marked."""
        self.need(self.begin)
        before = self.size
        self.sum_up(self.begin)
        while self.rows:
            rows = first_lines(os.pread(self.file.fileno(), MOST_OF_A_ROW * self.rows, self.size), self.rows)
            if not rows:
                raise Changed(f"{self.path} lacks {self.rows} rows")
            self.rows -= rows.count(b"\n")
            self.add(rows)
        if self.mark and self.size > before:
            with suppress(OSError):  # an older mark is true, too
                self.mark.write(self.size, self.sum)

    def check(self) -> None:
        """Whether it has all rows of which a program has told that has ended."""
        (self.take if self.rows else self.look)()

    def sum_up(self, end: int) -> None:
        while self.size < end:
            rows = os.pread(self.file.fileno(), min(BLOCK, end - self.size), self.size)
            if not rows:
                raise Changed(f"{self.path} has {self.size} bytes of {end}")
            self.add(rows)

    def add(self, rows: bytes) -> None:
        self.size, self.sum = self.size + len(rows), crc32(rows, self.sum)

    def measured(self) -> int:
        try:
            state = self.path.stat()
        except FileNotFoundError:
            raise Changed(f"{self.path} is not there") from None
        self.identify(state)
        return state.st_size

    def identify(self, state: os.stat_result) -> None:
        if self.file and not os.path.samestat(state, os.fstat(self.file.fileno())):
            raise Changed(f"{self.path} is another file")

    def copy(self) -> None:
        """Puts a synced copy in its place: after a failed sync, the system may show bytes that the disk has not."""
        path = self.path.resolve()
        fresh = fresh_beside(path)
        try:
            with path.open("rb") as old:
                self.identify(os.fstat(old.fileno()))
                new = fresh.open("x+b")
                fcntl.flock(old, fcntl.LOCK_EX | fcntl.LOCK_NB)
                shutil.copyfileobj(old, new)
                keep_owner(new, os.fstat(old.fileno()))
                sync(new)
                self.measured()
                fresh.replace(path)
                self.file = new
            sync_folder(path)
        except OSError:
            fresh.unlink(missing_ok=True)
            raise

    def settle(self, is_full: bool) -> None:
        """Has the disk keep what the log shows: in a copy; in place, if a full disk took nothing."""
        try:
            self.copy()
        except Changed:
            raise
        except OSError:
            if not is_full:
                raise
            with self.path.open("rb+") as file:
                sync(file)

    def try_disk(self) -> None:
        """Whether the disk takes the rows of a part, and a file may have them behind those of the log."""
        path = self.path.resolve()
        fresh = fresh_beside(path)
        try:
            with fresh.open("xb") as file:
                file.seek(path.stat().st_size)
                file.write(os.urandom(MOST_OF_A_PART))
                sync(file)
        finally:
            fresh.unlink(missing_ok=True)


def keep_owner(file: IO[bytes], state: os.stat_result) -> None:
    os.fchmod(file.fileno(), state.st_mode & 0o7777)
    with suppress(PermissionError):
        os.fchown(file.fileno(), state.st_uid, state.st_gid)


class Clock:
    """The server's time in milliseconds, which never goes back. FILE.clock keeps a time that no earlier one passed, and
    that is ahead so that it is written once a second: a start goes on from it, as a timestamp oracle does."""

    def __init__(self, kept: Kept | None) -> None:
        self.kept, self.last = kept, kept.numbers[0] if kept else 0
        self.until = self.last

    def now(self) -> int:
        now = max(self.last, time.time_ns() // 1_000_000)
        if now > self.until:
            self.keep(now + AHEAD)
        self.last = now
        return now

    def keep(self, until: int) -> None:
        if self.kept:
            self.kept.write(until)
            self.kept.sync()
        self.until = until
