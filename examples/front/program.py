"""The auction's program, what it is asked for, and its starts."""

import argparse
import asyncio
import os
import sys
import time
from collections import Counter, deque
from contextlib import suppress
from itertools import count

from front.audit import Audit, last_number
from front.log import Changed, Clock, Kept, Log, beside
from front.resp import error, text

MOST_UNDER_WAY = 16384  # requests of all clients, beyond which no client more is taken
MOST_OF_A_CLIENT = 1000  # requests
MOST_FAILURES = 5  # starts of the program in a row that answer nothing
PAUSE, LONGEST_PAUSE = 1, 10  # seconds before the disk is tried again
ANOTHER_LOG = 7  # the status of a front whose log is not the one that it left

ENDS = error(b"ERR the auction ends")
UNKNOWN = error(b"UNKNOWN whether this was done: the auction ended before its reply")
NOT_DONE = b"ERR not done: the log "
REFUSED = b"refused "  # what the reply to a store that has no row begins with
# What the program says of its log after a part: of all but the last it has taken the rows back.
LOG_FAULTS = (b"cannot be written", b"cannot be synced", b"cannot be cut back")

SAID: dict[str, float] = {}  # what may be said again at these times


def say(words: object) -> None:
    print(f"front: {words}", file=sys.stderr, flush=True)


def say_seldom(words: str) -> None:
    """Says once a minute what may happen often."""
    now = time.monotonic()
    if now >= SAID.get(words, now):
        SAID[words] = now + 60
        say(words)


class Request:
    """A command, and its reply, which its client may have once it is released."""

    __slots__ = ("client", "record", "reply", "is_released")

    def __init__(self, client: "Client", record: bytes = b"", reply: bytes | None = None) -> None:
        self.client, self.record, self.reply, self.is_released = client, record, reply, reply is not None

    def is_store(self) -> bool:
        return not self.record.startswith(b"view")

    def end(self, reply: bytes) -> None:
        self.reply, self.is_released = reply, True
        self.client.tell()


class Engine(asyncio.SubprocessProtocol):
    """The program, and what it is asked for. What comes while it is busy is its next part, so that all of it waits for
    the disk once."""

    # Whether log and clock outlast the front in files beside the log; the status if the log is another, and its remedy.
    is_kept, another_log = True, ANOTHER_LOG
    remedy = "put it back, or remove its .mark to go on with what is there"

    def __init__(self, asked: argparse.Namespace) -> None:
        self.asked, self.sessions, self.clients, self.share = asked, count(), set(), MOST_OF_A_CLIENT
        self.waiting, self.unanswered, self.group = [], deque(), []
        self.stdin, self.audit, self.is_stopping = None, None, False
        self.failures = self.requests = self.groups = self.seconds = self.sent_at = 0
        self.starts = last_number(asked.audit) if asked.audit else 0
        self.log = Log(asked.log, self.is_kept) if asked.log else None
        self.clock = Clock(Kept(beside(asked.log, "clock"), 1) if asked.log and self.is_kept else None)
        # What the program said of its log; why no store is logged now, until when, and how long the next pause is; and
        # whether the log has to be copied first.
        self.fault = self.unlogged = b""
        self.until, self.pause, self.must_copy = 0, PAUSE, False

    def add(self, client: "Client") -> None:
        self.clients.add(client)
        self.divide()

    def remove(self, client: "Client") -> None:
        self.clients.remove(client)
        self.divide()

    def divide(self) -> None:
        """Sets how many requests each client may have under way, beyond which it is read no further."""
        self.share = max(8, min(MOST_UNDER_WAY // 4 // max(1, len(self.clients)), MOST_OF_A_CLIENT))

    def under_way(self) -> int:
        return len(self.unanswered) + len(self.waiting)

    async def start(self) -> None:
        """Starts the program, which goes on from the log."""
        asked, self.starts, self.exited = self.asked, self.starts + 1, asyncio.get_running_loop().create_future()
        # Of each worker what was sent and not answered, and the index of the first of these; of all, what is answered
        # but not all that was sent before it.
        self.queues, self.firsts = [deque() for _ in range(asked.workers)], [0] * asked.workers
        self.lines, self.answered, self.tail = [], [], b""
        self.fault, self.has_stored = b"", False
        try:
            if self.log:
                self.log.open()
            self.audit = Audit(asked.audit, self.starts, asked.log) if asked.audit else None
        except BlockingIOError:
            return self.exited.set_result(5)  # as of a program whose log is in use
        log = ("--log", str(asked.log)) if asked.log else ()
        words = [asked.program, *asked.options, "--live", "1000", "--history", "--workers", str(asked.workers), *log]
        # Faults come among the replies, so that it is known whose they are. A log past `ulimit -f` is one, too: Python
        # ignores its signal, and so does the program then.
        how = {"stderr": asyncio.subprocess.STDOUT, "start_new_session": True, "restore_signals": False}
        self.process, _ = await asyncio.get_running_loop().subprocess_exec(lambda: self, *words, **how)
        self.stdin = self.process.get_pipe_transport(0)
        return self.send()

    def ask(self, request: Request) -> None:
        if self.unlogged and request.is_store():
            self.try_log()
            return request.end(error(NOT_DONE + self.unlogged))
        if not self.waiting:
            asyncio.get_running_loop().call_soon(self.send)
        return self.waiting.append(request)

    def send(self) -> None:
        """Sends in one write what was asked for in a turn of the loop."""
        if self.stdin is None or self.stdin.is_closing():
            return
        self.sent_at = self.sent_at if self.unanswered else time.monotonic()
        for request in self.waiting:
            self.unanswered.append(request)
            self.queues[request.client.worker].append(request)
        self.has_stored = self.has_stored or any(request.is_store() for request in self.waiting)
        self.stdin.write(b"".join(b"%d,%s\n" % (request.client.worker, request.record) for request in self.waiting))
        self.waiting = []
        if self.is_stopping:
            self.stdin.close()

    def pipe_data_received(self, _: int, data: bytes) -> None:
        *lines, self.tail = (self.tail + data).split(b"\n")
        try:
            self.take(lines)
        except Changed:
            self.process.close()  # kills it, and nothing more of it is taken
        except (LookupError, OSError, ValueError) as fault:
            say(f"no history, or none that can be kept: {fault!r}")
            self.is_stopping = True
            self.process.close()

    def take(self, lines: list[bytes]) -> None:
        """Takes lines of the program, and releases the replies before which nothing is unanswered."""
        whole, held, answered = 0, self.lines, self.answered
        for line in lines:
            (self.take_reply if line[:1].isdigit() else self.take_fault)(line)
            if len(answered) == len(held):
                whole = len(held)
        if whole and self.log:
            self.log.take()
        if whole:
            now, self.failures, self.requests, self.groups = time.monotonic(), 0, self.requests + whole, self.groups + 1
            self.seconds, self.sent_at = self.seconds + now - self.sent_at, now
            self.release(held[:whole], answered[:whole])
            self.lines, self.answered = held[whole:], answered[whole:]

    def take_reply(self, line: bytes) -> None:
        _, _, name, index, told = line.split(b" ", 4)
        request = self.queues[int(name)][int(index) - self.firsts[int(name)]]
        if self.log and request.is_store() and not told.startswith(REFUSED):
            self.log.rows += 1
        place = b"%d.%s.%s " % (self.starts, name, index) if request.client.has_places else b""
        request.reply = text(place + told)
        self.lines.append(line)
        while self.unanswered and self.unanswered[0].reply is not None:
            self.answered.append(self.next_request())
            self.firsts[self.answered[-1].client.worker] += 1

    def next_request(self) -> Request:
        return self.queues[self.unanswered.popleft().client.worker].popleft()

    def take_fault(self, line: bytes) -> None:
        """A fault is of the first request that is not answered, since all before it are; other words are for whoever
        runs this."""
        words = line.removeprefix(b"rubis_auction: ")
        if self.unanswered and words.startswith((b"record ", b"more than ")):
            return self.next_request().end(error(b"ERR " + words.rpartition(b": ")[2]))
        told = words.removeprefix(os.fsencode(f"{self.asked.log}: "))
        if told.startswith(LOG_FAULTS):
            self.fault = told
        return say(line.decode(errors="replace"))

    def release(self, lines: list[bytes], requests: list[Request]) -> None:
        """Releases replies whose rows are logged: lines of the history, and their requests in the order in which they
        were sent."""
        self.group = requests
        if self.audit:
            self.audit.keep(lines, requests)
        for request in requests:
            request.is_released = True
        for client in {request.client for request in requests}:
            client.tell()
        if self.pause > PAUSE and any(request.is_store() for request in requests):
            self.pause = PAUSE

    def connection_lost(self, _: Exception | None) -> None:
        self.exited.set_result(self.process.get_returncode())
        self.process.close()

    async def go_on(self) -> int:
        """Starts the program again each time that it has ended, until it is not to go on, and gives the status. Nobody
        waits for a reply that does not come."""
        change = None
        while True:
            status = await self.exited
            say(f"the program ended with status {status}")
            lost, self.unanswered, self.stdin, self.audit = [*self.answered, *self.unanswered], deque(), None, None
            # If stores fail, the log was read well; and for a copy the program is ended.
            self.failures += not (self.fault and self.has_stored or self.must_copy and status == 0)
            try:
                reply = await self.settled()
            except Changed as fault:
                change, reply = fault, UNKNOWN
            self.give_up(lost, reply)
            if change or self.is_stopping or status == 1 or not self.log or self.failures > MOST_FAILURES:
                break
            await asyncio.sleep(0.1 * self.failures)
            try:
                await self.start()
            except Changed as fault:
                change = fault
                break
        for request in self.waiting:
            request.end(ENDS)
        return self.status(change, self.is_stopping and status == 0 and not lost)

    def give_up(self, lost: list[Request], reply: bytes) -> None:
        """Ends stores without a reply, with this one; views are asked for again."""
        for request in lost:
            request.reply = None
            if request.is_store():
                request.end(reply)
        waiting, self.waiting = [*(request for request in lost if not request.is_store()), *self.waiting], []
        for request in waiting:
            self.ask(request)

    async def settled(self) -> bytes:
        """After a fault of the log: copies it, and answers no stores for a while. Gives the reply to those that were
        under way: not done, if the program took their rows back and the disk has none of them."""
        if self.log:
            await asyncio.to_thread(self.log.check)
        if not self.fault and not self.must_copy:
            return UNKNOWN
        fault, is_full = self.fault, self.has_stored and self.fault.startswith(LOG_FAULTS[0])
        self.unlogged, self.until, self.pause = fault or self.unlogged, time.monotonic() + self.pause, 2 * self.pause
        self.pause, self.must_copy = min(self.pause, LONGEST_PAUSE), True
        try:
            await asyncio.to_thread(self.log.settle, is_full)
        except Changed:
            raise
        except OSError as why:
            say(f"the log cannot be copied, as it has to be before a store: {why}")
            return UNKNOWN
        self.must_copy = False
        is_known = fault.startswith(LOG_FAULTS[:2]) and not self.answered
        return error(NOT_DONE + fault) if is_known else UNKNOWN

    def try_log(self) -> None:
        """Looks, after each pause, whether stores can be logged again. A copy needs a program that has ended."""
        if time.monotonic() < self.until or self.stdin is None:
            return
        self.until = time.monotonic() + self.pause
        if self.must_copy:
            self.stdin.close()
        else:
            self.trying = asyncio.create_task(self.try_disk())

    async def try_disk(self) -> None:
        try:
            await asyncio.to_thread(self.log.try_disk)
            self.unlogged = b""
        except OSError as fault:
            self.pause = min(2 * self.pause, LONGEST_PAUSE)
            self.unlogged = b"cannot be written: " + str(fault.strerror).encode()

    def status(self, change: Changed | None, is_well: bool) -> int:
        if self.log and self.clock.last:
            with suppress(OSError):
                self.clock.keep(self.clock.last)
        if change:
            say(f"{change}: {self.remedy}")
            return self.another_log
        return 0 if is_well else 1

    def stop(self) -> None:
        """Takes no more requests, and ends once all are answered."""
        self.is_stopping = True
        self.send()

    async def end_idle(self, seconds: float) -> None:
        """Ends connections on which nothing came for so long, and of which nothing is asked for."""
        while True:
            await asyncio.sleep(min(1, seconds / 4))
            for client in [*self.clients]:
                client.end_idle(time.monotonic() - seconds)

    def info(self) -> bytes:
        # But for the name of a new item, only the id of an item has a point.
        records = (request.record.decode() for request in self.group if b"item" not in request.record[:5])
        words = (word for record in records for word in record.split(","))
        item, often = next(iter(Counter(word for word in words if "." in word).most_common(1)), ("none", 0))
        counts = {
            "connected_clients": len(self.clients),
            "requests": self.requests,
            "under_way": self.under_way(),
            "starts": self.starts,
            "groups": self.groups,
            "group_microseconds": int(1e6 * self.seconds / max(1, self.groups)),
            "last_group_requests": len(self.group),
            "busiest_item": item,
            "busiest_item_requests": often,
        }
        return text("".join(f"{name}:{told}\r\n" for name, told in counts.items()).encode())
