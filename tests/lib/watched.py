"""A load of many clients that note what they see of a front; and whether what they saw, what the front kept and the log
are one auction, strictly serializable."""

import asyncio
import csv
from collections import Counter
from dataclasses import dataclass, field
from functools import cache
from pathlib import Path
from types import SimpleNamespace
from typing import Any, Callable

from lib.fronts import WORKERS, Front, FrontTester, load
from lib.load_model import Market, Plan
from lib.program import run
from lib.sessions import SECONDS, is_stored

# Clients, how many requests each has under way, and how many replies come between two events.
CLIENTS, PIPELINE, BETWEEN = 100, 4, 4000
MIX = Plan(requests=20_000, workers=WORKERS, items=64, skew=120, views=50, comments=10, purchases=5, new_items=5)


@dataclass
class Seen:
    """What a client noted of a request: when it was sent and answered, and its reply."""

    sent: int
    answered: int
    text: str


class Watcher(load.Client):
    """A client of a load that notes what it sees, and connects again if it is cut off."""

    def __init__(self, *words: Any) -> None:
        super().__init__(*words)
        self.seen: dict[tuple[int, int, int], Seen] = {}
        self.refused: Counter[bytes] = Counter()
        self.lost = 0

    async def run(self, **place: Any) -> None:
        while load.CLOCK() < self.asked.until:
            try:
                await super().run(**place)
            except OSError:
                await asyncio.sleep(0.02)

    def connection_made(self, transport: asyncio.Transport) -> None:
        transport.write(b"PLACES ON\n")
        super().connection_made(transport)
        self.sent.appendleft(0)

    def connection_lost(self, fault: Exception | None) -> None:
        self.lost += len(self.sent)
        super().connection_lost(fault)

    def note(self, line: bytes, sent: int, now: int) -> None:
        if line[:1] == b"-":
            self.refused[line] += 1
        elif line != b"+OK":
            place, text = line.split(b" ", 1)
            self.seen[tuple(map(int, place.split(b".")))] = Seen(sent, now, text.decode())


@dataclass
class Outcome:
    """What all clients of a load saw."""

    seen: dict[tuple[int, int, int], Seen] = field(default_factory=dict)
    refused: Counter[bytes] = field(default_factory=Counter)
    lost: int = 0


def watched(front: Front, *events: Callable[[], None]) -> Outcome:
    """A load of 100 clients: an event each time that so many replies have come, and then so many
    more, if the front lives on."""
    commands = load.commands_of(mix()[1])
    asked = SimpleNamespace(pipeline=PIPELINE, seconds=SECONDS * (len(events) + 1))
    watchers = [Watcher(commands, at, asked) for at in range(0, len(commands), len(commands) // CLIENTS)]

    async def lead() -> None:
        for event in (*events, lambda: None):
            wanted = BETWEEN + sum(len(watcher.seen) for watcher in watchers)
            while front.process.poll() is None and sum(len(watcher.seen) for watcher in watchers) < wanted:
                await asyncio.sleep(0.01)
            event()
        asked.until = 0

    async def drive() -> None:
        await asyncio.wait_for(
            asyncio.gather(load.drive(watchers, asked, host="127.0.0.1", port=front.port), lead()), asked.seconds
        )

    asyncio.run(drive())
    outcome = Outcome()
    for watcher in watchers:
        outcome.seen |= watcher.seen
        outcome.refused += watcher.refused
        outcome.lost += watcher.lost
    return outcome


@cache
def mix() -> tuple[bytes, list[str]]:
    """Rows and requests of a load in which some items are busier than others."""
    lines = list(Market(MIX).lines())
    return "".join(lines[: MIX.items]).encode(), lines[MIX.items :]


# Whether it is strictly serializable.


@dataclass(eq=False)
class Start:
    """What is kept of one start of the program: rows, requests of each worker, and the history."""

    number: int
    rows: list[str]
    requests: dict[tuple[int, int], str]
    history: list[tuple[int, int, str]]

    @classmethod
    def read(cls, path: Path) -> "Start":
        """Files of a front that was killed may have a line and a half too much."""
        start, counts = cls(int(path.stem), [], {}, []), Counter()
        for line in whole_lines(path):
            _, _, worker, index, text = line.split(" ", 4)
            start.history.append((int(worker), int(index), text))
        answered = Counter(worker for worker, _, _ in start.history)
        for record in whole_lines(path.with_suffix(".csv")):
            worker, kind, _ = record.split(",", 2)
            if kind.startswith("+"):
                start.rows.append(record)
            elif counts[int(worker)] < answered[int(worker)]:
                start.requests[int(worker), counts[int(worker)]] = record
                counts[int(worker)] += 1
        return start

    def stores(self) -> list[str]:
        return [self.requests[worker, index] for worker, index, text in self.history if is_stored(text)]


def whole_lines(path: Path) -> list[str]:
    return path.read_text().rpartition("\n")[0].split("\n") if path.stat().st_size else []


def starts_of(audit: Path) -> list[Start]:
    """Those of the program. A front that ended before has left no history."""
    return [Start.read(path) for path in sorted(audit.glob("*.history"), key=lambda path: int(path.stem))]


@cache
def referee(tester: FrontTester, start: Start) -> str:
    """What the referee says of a history, if that is not right."""
    history = tester.folder / "judged"
    history.write_text("".join(f"0 0 {worker} {index} {text}\n" for worker, index, text in start.history))
    data = "".join(f"{line}\n" for line in (*start.rows, *start.requests.values()))
    got = run([tester.referee, "--workers", str(WORKERS), "--order", "--history", history], data.encode())
    return "" if got.status == 0 else f"start {start.number}: {(got.stdout or got.stderr).decode().strip()}"


def seen_otherwise(starts: list[Start], outcome: Outcome) -> str:
    texts = {(start.number, worker, index): text for start in starts for worker, index, text in start.history}
    wrong = [
        (place, seen.text, texts.get(place)) for place, seen in outcome.seen.items() if texts.get(place) != seen.text
    ]
    return f"{len(wrong)} seen otherwise: {wrong[0]}" if wrong else ""


def against_time(starts: list[Start], outcome: Outcome) -> str:
    """Requests that come in the order before one that was answered before they were sent."""
    earliest, wrong = float("inf"), []
    for place in reversed([(start.number, worker, index) for start in starts for worker, index, _ in start.history]):
        if seen := outcome.seen.get(place):
            if seen.sent > earliest:
                wrong.append(place)
            earliest = min(earliest, seen.answered)
    return f"{len(wrong)} against time: {wrong[0]}" if wrong else ""


def log_is_exact(starts: list[Start], log: list[str]) -> str:
    """Behind the rows that a start began with are the answered stores of its history, and then at most what was under
    way, but nothing at the end."""
    ends = [*(len(start.rows) for start in starts[1:]), len(log)]
    for start, end in zip(starts, ends):
        rows, stores = len(start.rows), start.stores()
        if log[:rows] != start.rows or list(map(fields, log[rows : rows + len(stores)])) != list(map(fields, stores)):
            return f"start {start.number}: the log has other rows than the answered stores"
        if not 0 <= end - rows - len(stores) <= CLIENTS * PIPELINE * (start is not starts[-1]):
            return f"start {start.number}: {end - rows - len(stores)} rows behind the answered stores"
    return ""


def fields(record: str) -> list[str]:
    """What a request and its row have in common."""
    worker, kind, *rest = next(csv.reader([record])) if '"' in record else record.split(",")
    kind = kind.lstrip("+")
    return [worker, kind, *rest, *(["1"] if kind == "item" and len(rest) == 6 else [])]


def judge(tester: FrontTester, front: Front, outcome: Outcome) -> list[Start]:
    """Whether a served auction is strictly serializable and its log exact. Gives what was kept of it."""
    starts, log = starts_of(front.audit), whole_lines(front.log)
    found = [
        *(referee(tester, start) for start in starts),
        seen_otherwise(starts, outcome),
        against_time(starts, outcome),
        log_is_exact(starts, log),
    ]
    tester.tally.check(
        len(outcome.seen) >= BETWEEN and not any(found),
        f"{front.folder.name}: {len(outcome.seen)} replies seen; {found}; {front.said.read_text()[-300:]}",
    )
    return starts


def judged_by_itself(tester: FrontTester, front: Front, starts: str = "*") -> None:
    """The referee takes the files as they are, if the front was not killed."""
    for path in front.audit.glob(f"{starts}.history"):
        got = run(
            [tester.referee, "--workers", str(WORKERS), "--order", "--history", path],
            path.with_suffix(".csv").read_bytes(),
        )
        tester.tally.check(got.status == 0, f"{path.name} of {front.folder.name}: {got.stdout!r} {got.stderr!r}")
