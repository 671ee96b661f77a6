"""Random inputs and options for the auction program: lawful ones on few items, users and
categories, and damaged ones."""

import random
import re
import shlex
from dataclasses import dataclass, fields, replace
from pathlib import Path

from lib.model import Book, Options, is_refusal
from lib.program import TESTS
from lib.records import BYTE_ORDER_MARK, MAX_32, MAX_64, MAX_QUANTITY
from lib.records import Bid, BuyNow, Comment, Id, Item, Request, ViewBids, ViewCategory, ViewItem, ViewUser

KEPT = TESTS / "out"
KINDS = (Item, Bid, Comment, BuyNow, ViewItem, ViewBids, ViewCategory, ViewUser)
STORES = KINDS[:4]
PROFILES = {
    "mixed": (20, 30, 15, 10, 8, 5, 6, 6),
    "bids": (1, 80, 2, 2, 8, 5, 1, 1),
    "purchases": (8, 25, 2, 50, 12, 1, 1, 1),
    "comments": (5, 5, 65, 1, 1, 1, 2, 20),
    "listings": (60, 10, 2, 2, 2, 2, 20, 2),
    "views": (5, 5, 5, 1, 21, 21, 21, 21),
}
LINE_ENDS = (b"\n", b"\n", b"\n", b"\r\n", b"\r", b"\n\n", b"\r\n\r\n")
ODD_NUMBERS = (
    b"|00|01|007|+1|-1|1.0| 1|1 |1e3|0x1|4294967295|4294967296|18446744073709551615|18446744073709551616"
    b"|99999999999999999999999"
).split(b"|")
ODD_FIELDS = (
    b"item|+item|bid|+viewuser|Bid|0.0|0.00|1.0.0|.|0.|.0|-6|-5|5|6|+5|-0|1000000|1000001"
    b"|\xc3\xa9|\x7f|~|\"|\"\"|\x00"
).split(b"|")
ODD_BYTES = b',,"""\r\n0+-. ;#\t\x00\xff\xef~'


@dataclass(frozen=True)
class Input:
    data: bytes
    options: Options

    def keep(self, name: str, *programs: Path) -> str:
        """Writes it to a file in tests/out, and answers the command lines that show it again."""
        KEPT.mkdir(exist_ok=True)
        path = KEPT / f"{name}.csv"
        path.write_bytes(self.data)
        words = self.options.words()
        return "; ".join(f"{shlex.join([str(program), *words])} < {shlex.quote(str(path))}" for program in programs)


def random_input(rng: random.Random) -> Input:
    options = random_options(rng)
    lengths = (0, rng.choices((0, 4, 15, 40, 100, 300), (4, 20, 45, 25, 5, 1))[0])
    if rng.random() < 0.1:
        options = crowded(rng, options)
        lengths = (options.joined, options.joined + options.split)
    data = Text(rng, options, lengths).made()
    if rng.random() < 0.2:
        data = damaged(rng, data)
    return Input(data, options)


def crowded(rng: random.Random, options: Options) -> Options:
    """Options of several workers with as many requests in a phase as make each worker a thread of its own, if
    they are on several shards."""
    joined, split = (rng.choice((140, 280)) for _ in range(2))
    return replace(
        options,
        workers=rng.choice((2, 3, 4)),
        shards=rng.choice((3, 4, 5, 16, 64)),
        joined=joined,
        split=split,
        history=True,
    )


def random_options(rng: random.Random) -> Options:
    quotas = (1, 2, 3, 3, 5, 5, 8, 8, 64, 1000, 1_000_000)
    return Options(
        workers=rng.choice((1, 1, 1, 1, 2, 2, 3, 4, 8, rng.randint(1, 16), 16)),
        shards=rng.choice((1, 2, 3, 4, 5, 64, rng.randint(1, 64))),
        joined=rng.choice(quotas),
        split=rng.choice(quotas),
        threshold=rng.choice((1, 1, 1, 1, 2, 2, 3, 8, 1_000_000)),
        hot=rng.choice((0, 1, 2, 3, 8, 8, 64)),
        users=rng.choice((1, 2, 3, 5, 5, 100, 1_000_000, rng.randint(0, 1))),
        categories=rng.choice((1, 1, 2, 2, 3, 10, rng.randint(0, 1))),
        history=rng.random() < 0.5,
        rows=rng.random() < 0.2,
        report=rng.random() < 0.5,
    )


class Text:
    """One random input in the making, with scripts of such lengths."""

    def __init__(self, rng: random.Random, options: Options, lengths: tuple[int, int]) -> None:
        self.rng = rng
        self.options = options
        self.lengths = lengths
        self.weights = rng.choice(list(PROFILES.values()))
        self.owners = rng.sample(range(options.workers), rng.randint(1, min(options.workers, 2)))
        self.items = rng.choice((1, 1, 2, 4))
        self.line_end = rng.choice(LINE_ENDS)
        self.quoting = rng.choice((0, 0, 0, 0.3, 1))

    def made(self) -> bytes:
        records = [self.record(worker, request, "+") for worker, request in self.rows()]
        records += [self.record(worker, request, "") for worker, request in self.requests()]
        text = b"".join(record + self.line_end for record in records)
        if self.rng.random() < 0.1:
            text = text.removesuffix(self.line_end)
        return BYTE_ORDER_MARK + text if self.rng.random() < 0.05 else text

    def rows(self) -> list[tuple[int, Request]]:
        """Rows that are rows at their places; now and then one that may be none."""
        book = Book(self.options.users, self.options.categories)
        rows = self.first_items() if self.rng.random() < 0.7 else []
        rows += [
            (self.worker(), self.request(STORES, self.weights[:4])) for _ in range(self.rng.choice((0, 0, 1, 5, 20)))
        ]
        return [row for row in rows if not is_refusal(book.perform(*row)) or self.rng.random() < 0.01]

    def first_items(self) -> list[tuple[int, Request]]:
        return [(owner, self.request((Item,), (1,))) for owner in self.owners for _ in range(self.items)]

    def requests(self) -> list[tuple[int, Request]]:
        workers = range(self.options.workers)
        asked = [
            (worker, self.request(KINDS, self.weights))
            for worker in workers
            for _ in range(self.rng.randint(*self.lengths))
        ]
        self.rng.shuffle(asked)
        return asked

    def request(self, kinds: tuple[type[Request], ...], weights: tuple[int, ...]) -> Request:
        makers = {
            Item: lambda: Item(
                self.user(), self.category(), self.name(), self.number(3), self.closing(), self.time(), self.quantity()
            ),
            Bid: lambda: Bid(self.user(), self.item(), self.number(8), self.time()),
            Comment: lambda: Comment(self.user(), self.user(), self.item(), self.rng.randint(-5, 5)),
            BuyNow: lambda: BuyNow(self.user(), self.item(), self.quantity(), self.time()),
            ViewItem: lambda: ViewItem(self.item()),
            ViewBids: lambda: ViewBids(self.item()),
            ViewCategory: lambda: ViewCategory(self.category()),
            ViewUser: lambda: ViewUser(self.user()),
        }
        return makers[self.rng.choices(kinds, weights)[0]]()

    def worker(self) -> int:
        return self.rng.randrange(self.options.workers)

    def item(self) -> Id:
        if self.rng.random() < 0.02:
            return Id(self.rng.choice((16, MAX_32)), self.rng.choice((0, MAX_32)))
        return Id(self.rng.choice(self.owners), self.rng.randrange(self.items))

    def below(self, count: int) -> int:
        """A number below a few, and mostly below the count."""
        if count == 0 or self.rng.random() < 0.03:
            return self.rng.choice((count, MAX_32))
        return self.rng.choice((0, self.rng.randrange(min(count, 4)), count - 1))

    def user(self) -> int:
        return self.below(self.options.users)

    def category(self) -> int:
        return self.below(self.options.categories)

    def number(self, most: int) -> int:
        if self.rng.random() < 0.03:
            return self.rng.choice((MAX_32, MAX_32 + 1, MAX_64 - 1, MAX_64))
        return self.rng.randint(0, most)

    def time(self) -> int:
        return self.number(12)

    def closing(self) -> int:
        return self.number(4) if self.rng.random() < 0.1 else self.rng.choice((10, 16, 16, MAX_64))

    def quantity(self) -> int:
        return self.rng.choice((1, 1, 2, 3, 5, 40, MAX_QUANTITY))

    def name(self) -> str:
        length = self.rng.choice((1, 4, 32))
        return "".join(
            chr(self.rng.choice((0x20, 0x22, 0x2C, 0x7E, self.rng.randint(0x20, 0x7E)))) for _ in range(length)
        )

    def record(self, worker: int, request: Request, plus: str) -> bytes:
        values = [getattr(request, field.name) for field in fields(request)]
        if isinstance(request, Item) and request.quantity == 1 and self.rng.random() < 0.5:
            values.pop()
        words = [worker, plus + request.word, *values]
        return b",".join(self.field(str(word).encode("ascii")) for word in words)

    def field(self, text: bytes) -> bytes:
        if re.search(rb'[,"]', text) or self.rng.random() < self.quoting:
            return b'"' + text.replace(b'"', b'""') + b'"'
        return text


def damaged(rng: random.Random, data: bytes) -> bytes:
    for _ in range(rng.choice((1, 1, 1, 2, 4))):
        data = rng.choice((without_some, with_odd_byte, with_odd_number, with_odd_field, cut_short, with_line_again))(
            rng, data
        )
    return data


def without_some(rng: random.Random, data: bytes) -> bytes:
    place = rng.randint(0, len(data))
    return data[:place] + data[place + rng.choice((1, 1, 2, 9)) :]


def with_odd_byte(rng: random.Random, data: bytes) -> bytes:
    place = rng.randint(0, len(data))
    odd = bytes([rng.choice(ODD_BYTES)])
    return data[:place] + odd + data[place + rng.randint(0, 1) :]


def with_odd_number(rng: random.Random, data: bytes) -> bytes:
    return with_one_replaced(rng, data, rb"[0-9]+", ODD_NUMBERS)


def with_odd_field(rng: random.Random, data: bytes) -> bytes:
    return with_one_replaced(rng, data, rb"[^,\r\n]+", ODD_FIELDS)


def with_one_replaced(rng: random.Random, data: bytes, pattern: bytes, odd: list[bytes]) -> bytes:
    places = [match.span() for match in re.finditer(pattern, data)]
    if not places:
        return data
    start, end = rng.choice(places)
    return data[:start] + rng.choice(odd) + data[end:]


def cut_short(rng: random.Random, data: bytes) -> bytes:
    return data[: rng.randint(0, len(data))]


def with_line_again(rng: random.Random, data: bytes) -> bytes:
    lines = data.splitlines(keepends=True)
    if lines:
        lines.insert(rng.randint(0, len(lines)), rng.choice(lines))
    return b"".join(lines)
