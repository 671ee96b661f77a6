"""The requests of the auction, and how a text of records is read as rows and scripts.

Written from docs/FORMATS.md and docs/DEFINITIONS.md alone. Where they say "read by `csv`", this follows what the `csv`
crate says of itself: a quote inside an unquoted field stands for itself, what follows a closing quote belongs to the
field, and the end of the input ends an open quote.
"""

import re
from dataclasses import dataclass, field
from typing import ClassVar, Iterator, TypeVar

MAX_32 = 2**32 - 1
MAX_64 = 2**64 - 1
MAX_QUANTITY = 1_000_000
MAX_RECORDS = 16_000_000

BYTE_ORDER_MARK = b"\xef\xbb\xbf"
NUMBER = re.compile(rb"0|[1-9][0-9]{0,19}")
NAME = re.compile(rb"[ -~]{1,32}")
STARS = {str(stars).encode(): stars for stars in range(-5, 6)}

UNREADABLE, NOT_PERFORMED = 2, 3

T = TypeVar("T")


class Fault(Exception):
    """A fault of the program: its exit status and its text, as docs/FORMATS.md has them."""

    def __init__(self, status: int, text: str) -> None:
        super().__init__(text)
        self.status = status
        self.text = text


class Malformed(Exception):
    """What is wrong with one record."""


@dataclass(frozen=True, order=True)
class Id:
    worker: int
    serial: int

    def __str__(self) -> str:
        return f"{self.worker}.{self.serial}"


@dataclass(frozen=True, order=True)
class Object:
    """An item, a user or a category. Objects compare in object order."""

    rank: int
    numbers: tuple[int, ...]

    def __str__(self) -> str:
        return "iuc"[self.rank] + ".".join(map(str, self.numbers))

    def shard(self, shards: int) -> int:
        return sum(self.numbers) % shards


def item_object(item: Id) -> Object:
    return Object(0, (item.worker, item.serial))


def user_object(user: int) -> Object:
    return Object(1, (user,))


def category_object(category: int) -> Object:
    return Object(2, (category,))


class Request:
    """What all requests have in common; each kind overrides what differs."""

    word: ClassVar[str]
    is_store: ClassVar[bool] = False
    is_splittable: ClassVar[bool] = False

    def named_users(self) -> tuple[int, ...]:
        return ()

    def named_categories(self) -> tuple[int, ...]:
        return ()

    def named_item(self) -> Id | None:
        return None

    def touches(self) -> tuple[Object, ...]:
        return (item_object(self.named_item()),)

    def writes(self) -> Object:
        return item_object(self.named_item())


class OfAnItem(Request):
    def named_item(self) -> Id:
        return self.item


@dataclass(frozen=True)
class Item(Request):
    word = "item"
    is_store = is_splittable = True
    seller: int
    category: int
    name: str
    start: int
    closes: int
    time: int
    quantity: int = 1

    def named_users(self) -> tuple[int, ...]:
        return (self.seller,)

    def named_categories(self) -> tuple[int, ...]:
        return (self.category,)

    def touches(self) -> tuple[Object, ...]:
        return (category_object(self.category),)

    def writes(self) -> Object:
        return category_object(self.category)


@dataclass(frozen=True)
class Bid(OfAnItem):
    word = "bid"
    is_store = is_splittable = True
    bidder: int
    item: Id
    amount: int
    time: int

    def named_users(self) -> tuple[int, ...]:
        return (self.bidder,)


@dataclass(frozen=True)
class Comment(OfAnItem):
    word = "comment"
    is_store = is_splittable = True
    author: int
    about: int
    item: Id
    stars: int

    def named_users(self) -> tuple[int, ...]:
        return (self.author, self.about)

    def touches(self) -> tuple[Object, ...]:
        return (item_object(self.item), user_object(self.about))

    def writes(self) -> Object:
        return user_object(self.about)


@dataclass(frozen=True)
class BuyNow(OfAnItem):
    word = "buynow"
    is_store = True
    buyer: int
    item: Id
    quantity: int
    time: int

    def named_users(self) -> tuple[int, ...]:
        return (self.buyer,)


@dataclass(frozen=True)
class ViewItem(OfAnItem):
    word = "viewitem"
    item: Id


@dataclass(frozen=True)
class ViewBids(OfAnItem):
    word = "viewbids"
    item: Id


@dataclass(frozen=True)
class ViewCategory(Request):
    word = "viewcategory"
    category: int

    def named_categories(self) -> tuple[int, ...]:
        return (self.category,)

    def touches(self) -> tuple[Object, ...]:
        return (category_object(self.category),)


@dataclass(frozen=True)
class ViewUser(Request):
    word = "viewuser"
    user: int

    def named_users(self) -> tuple[int, ...]:
        return (self.user,)

    def touches(self) -> tuple[Object, ...]:
        return (user_object(self.user),)


def number_of(text: bytes, limit: int) -> int | None:
    if not NUMBER.fullmatch(text) or int(text) > limit:
        return None
    return int(text)


def required(value: T | None, complaint: str) -> T:
    if value is None:
        raise Malformed(complaint)
    return value


def number_32(text: bytes) -> int:
    return required(number_of(text, MAX_32), "not a number")


def number_64(text: bytes) -> int:
    return required(number_of(text, MAX_64), "not a number")


def item_id(text: bytes) -> Id:
    worker, _, serial = text.partition(b".")
    numbers = number_of(worker, MAX_32), number_of(serial, MAX_32)
    if None in numbers:
        raise Malformed("not an item id")
    return Id(*numbers)


def name(text: bytes) -> str:
    if not NAME.fullmatch(text):
        raise Malformed("not a name")
    return text.decode("ascii")


def stars(text: bytes) -> int:
    return required(STARS.get(text), "not stars")


def quantity(text: bytes) -> int:
    number = number_of(text, MAX_QUANTITY)
    return required(number or None, "not a quantity")


FIELDS = {
    Item: (number_32, number_32, name, number_64, number_64, number_64, quantity),
    Bid: (number_32, item_id, number_64, number_64),
    Comment: (number_32, number_32, item_id, stars),
    BuyNow: (number_32, item_id, quantity, number_64),
    ViewItem: (item_id,),
    ViewBids: (item_id,),
    ViewCategory: (number_32,),
    ViewUser: (number_32,),
}
REQUEST_KINDS = {kind.word.encode(): kind for kind in FIELDS}
ROW_KINDS = {b"+" + word: kind for word, kind in REQUEST_KINDS.items() if kind.is_store}


def has_field_count(kind: type[Request], count: int) -> bool:
    most = len(FIELDS[kind])
    return count == most or (kind is Item and count == most - 1)


@dataclass
class Asked:
    """What an input asks: rows to open with, each with its worker, and a script for each worker."""

    rows: list[tuple[int, Request]] = field(default_factory=list)
    scripts: list[list[Request]] = field(default_factory=list)

    def requests(self) -> int:
        return sum(map(len, self.scripts))

    def add(self, record: list[bytes]) -> None:
        """Adds a record, by the checks of docs/FORMATS.md in their order."""
        worker = number_32(record[0])
        if worker >= len(self.scripts):
            raise Malformed("no such worker")
        if len(record) < 2:
            raise Malformed("wrong number of fields")
        is_row = record[1] in ROW_KINDS
        kind = required(ROW_KINDS.get(record[1]) or REQUEST_KINDS.get(record[1]), "unknown kind")
        if is_row and self.requests():
            raise Malformed("row after a request")
        texts = record[2:]
        if not has_field_count(kind, len(texts)):
            raise Malformed("wrong number of fields")
        request = kind(*(read(text) for read, text in zip(FIELDS[kind], texts)))
        if is_row:
            self.rows.append((worker, request))
        else:
            self.scripts[worker].append(request)


def read_input(data: bytes, workers: int) -> Asked:
    asked = Asked(scripts=[[] for _ in range(workers)])
    for number, record in enumerate(split_records(data), start=1):
        if number > MAX_RECORDS:
            raise Fault(UNREADABLE, f"more than {MAX_RECORDS} records")
        try:
            asked.add(record)
        except Malformed as complaint:
            raise Fault(UNREADABLE, f"record {number}: {complaint}") from None
    return asked


def split_records(data: bytes) -> Iterator[list[bytes]]:
    """The records of a text, each a list of fields. Empty lines are none."""
    text = data.removeprefix(BYTE_ORDER_MARK)
    place = 0
    while place < len(text):
        if text[place] in b"\r\n":
            place += 1
            continue
        record, place = read_record(text, place)
        yield record


def read_record(text: bytes, place: int) -> tuple[list[bytes], int]:
    record = []
    while True:
        value, place = read_field(text, place)
        record.append(value)
        if place == len(text) or text[place] != ord(","):
            return record, place
        place += 1


UNQUOTED = re.compile(rb"[^,\r\n]*")
QUOTED = re.compile(rb'"((?:[^"]|"")*)"?')


def read_field(text: bytes, place: int) -> tuple[bytes, int]:
    """The field that begins at a place, and the place after it."""
    start = b""
    if text[place : place + 1] == b'"':
        quoted = QUOTED.match(text, place)
        start, place = quoted[1].replace(b'""', b'"'), quoted.end()
    rest = UNQUOTED.match(text, place)
    return start + rest[0], rest.end()
