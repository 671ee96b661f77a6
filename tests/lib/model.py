"""A model of the auction program: what it has to print for an input and its options.

Written from docs/FORMATS.md and docs/DEFINITIONS.md alone. The auction is one list of rows, and every reply a filter
over it. With one worker `expected` tells the whole outcome; with several, histories.py asks these definitions
whether a history is a lawful one.
"""

from collections import Counter
from dataclasses import dataclass, field, fields
from typing import Callable, Iterable

from lib.records import NOT_PERFORMED, Asked, Bid, BuyNow, Comment, Fault, Id, Item, Object, Request
from lib.records import ViewBids, ViewCategory, ViewItem, ViewUser, read_input

LISTED = 10
MAX_FOR_A_WORKER = 1_000_000


@dataclass(frozen=True)
class Options:
    workers: int = 1
    shards: int = 4
    joined: int = 64
    split: int = 64
    threshold: int = 8
    hot: int = 8
    users: int = 100
    categories: int = 10
    history: bool = False
    rows: bool = False
    report: bool = False

    def words(self) -> list[str]:
        """The words of a command line that say these options."""
        words = []
        for option in fields(self):
            value = getattr(self, option.name)
            if value is True:
                words.append(f"--{option.name}")
            elif value is not False:
                words.append(f"--{option.name}={value}")
        return words


@dataclass(frozen=True)
class Outcome:
    status: int
    stdout: bytes
    stderr: bytes


@dataclass(frozen=True)
class Row:
    id: Id
    request: Request

    def text(self) -> str:
        record = (self.id.worker, f"+{self.request.word}", *row_fields(self.request))
        return ",".join(map(str, record)) + "\n"


def row_fields(request: Request) -> list:
    values = (getattr(request, field.name) for field in fields(request))
    return [quoted(value) if isinstance(value, str) else value for value in values]


def quoted(name: str) -> str:
    return '"' + name.replace('"', '""') + '"'


def bid_order(bid: Row) -> tuple:
    return (bid.request.amount, bid.request.time, bid.id)


def item_order(item: Row) -> tuple:
    return (item.request.time, item.id)


def top(rows: Iterable[Row], order: Callable[[Row], tuple]) -> list[Row]:
    return sorted(rows, key=order, reverse=True)[:LISTED]


def is_refusal(reply: str) -> bool:
    return reply.startswith("refused ")


@dataclass
class Book:
    users: int
    categories: int
    rows: list[Row] = field(default_factory=list)

    def of_kind(self, kind: type[Request]) -> list[Row]:
        return [row for row in self.rows if isinstance(row.request, kind)]

    def item(self, item: Id) -> Item | None:
        return next((row.request for row in self.of_kind(Item) if row.id == item), None)

    def bids_on(self, item: Id) -> list[Row]:
        return [row for row in self.of_kind(Bid) if row.request.item == item]

    def comments_about(self, user: int) -> list[Row]:
        return [row for row in self.of_kind(Comment) if row.request.about == user]

    def items_listed(self, category: int) -> list[Row]:
        return [row for row in self.of_kind(Item) if row.request.category == category]

    def left(self, item: Id) -> int:
        bought = sum(row.request.quantity for row in self.of_kind(BuyNow) if row.request.item == item)
        return self.item(item).quantity - bought

    def next_id(self, worker: int, kind: type[Request]) -> Id:
        return Id(worker, sum(row.id.worker == worker for row in self.of_kind(kind)))

    def refusal(self, request: Request) -> str | None:
        if any(user >= self.users for user in request.named_users()):
            return "1 NoSuchUser"
        if any(category >= self.categories for category in request.named_categories()):
            return "2 NoSuchCategory"
        if request.named_item() is None:
            return None
        item = self.item(request.named_item())
        return self.item_refusal(request, item) if item else "3 NoSuchItem"

    def item_refusal(self, request: Request, item: Item) -> str | None:
        left = self.left(request.named_item())
        if isinstance(request, Bid) and request.amount < item.start:
            return "4 BelowStart"
        if isinstance(request, Bid | BuyNow) and request.time >= item.closes:
            return "5 Closed"
        if isinstance(request, Bid) and left == 0:
            return "6 SoldOut"
        if isinstance(request, BuyNow) and request.quantity > left:
            return "7 NotEnough"
        return None

    def reply(self, worker: int, request: Request) -> str:
        refusal = self.refusal(request)
        if refusal:
            return f"refused {refusal}"
        if request.is_store:
            return f"{request.word} {self.next_id(worker, type(request))}"
        return self.view(request)

    def view(self, request: Request) -> str:
        match request:
            case ViewItem():
                return self.view_item(request.item)
            case ViewBids():
                return "bids" + "".join(map(bid_text, top(self.bids_on(request.item), bid_order)))
            case ViewCategory():
                items = top(self.items_listed(request.category), item_order)
                return "latest" + "".join(f" {item.request.time}:{item.id}" for item in items)
            case ViewUser():
                comments = self.comments_about(request.user)
                return f"user rating={sum(row.request.stars for row in comments)} comments={len(comments)}"

    def view_item(self, id: Id) -> str:
        item, bids = self.item(id), self.bids_on(id)
        leading = max(bids, key=bid_order, default=None)
        highest, bidder = (leading.request.amount, leading.request.bidder) if leading else ("-", "-")
        return (
            f"viewitem seller={item.seller} category={item.category} start={item.start} closes={item.closes}"
            f" highest={highest} bidder={bidder} bids={len(bids)} left={self.left(id)} name={item.name}"
        )

    def perform(self, worker: int, request: Request) -> str:
        """The reply to a request; the book becomes the next one."""
        reply = self.reply(worker, request)
        if request.is_store and not is_refusal(reply):
            self.rows.append(Row(self.next_id(worker, type(request)), request))
        return reply


def bid_text(bid: Row) -> str:
    return f" {bid.request.amount}:{bid.request.time}:{bid.request.bidder}:{bid.id}"


@dataclass(frozen=True)
class Entry:
    """One commit of a history."""

    phase: int
    number: int
    worker: int
    index: int
    request: Request
    reply: str

    def is_accepted(self) -> bool:
        return not is_refusal(self.reply)

    def line(self) -> str:
        return f"{self.phase} {self.number} {self.worker} {self.index} {self.reply}\n"


def choose_hot(entries: Iterable[Entry], options: Options) -> list[Object]:
    """The hot set of the split phase after these entries, which are those of a joined phase."""
    stores = (entry.request for entry in entries if entry.request.is_splittable and entry.is_accepted())
    heat = Counter(request.writes() for request in stores)
    enough = [thing for thing, times in heat.items() if times >= options.threshold]
    return sorted(enough, key=lambda thing: (-heat[thing], thing))[: options.hot]


def is_split(phase: int) -> bool:
    return phase % 2 == 1


def quota(phase: int, options: Options) -> int:
    return options.split if is_split(phase) else options.joined


def is_put_off(request: Request, hot: list[Object]) -> bool:
    return not request.is_splittable and any(thing in hot for thing in request.touches())


@dataclass
class Run:
    """A history and the hot set of each of its phases."""

    entries: list[Entry] = field(default_factory=list)
    hot_sets: list[list[Object]] = field(default_factory=list)


def run_alone(book: Book, script: list[Request], options: Options) -> Run:
    """The run of one worker; the book becomes the one at its end."""
    run = Run()
    coming = list(enumerate(script))
    waiting: list[tuple[int, Request]] = []
    entries: list[Entry] = []
    while coming or waiting:
        phase = len(run.hot_sets)
        hot = choose_hot(entries, options) if is_split(phase) else []
        due = waiting + coming[: quota(phase, options)]
        coming = coming[quota(phase, options) :]
        waiting = [call for call in due if is_put_off(call[1], hot)]
        performed = [call for call in due if not is_put_off(call[1], hot)]
        entries = [
            Entry(phase, number, 0, index, request, book.perform(0, request))
            for number, (index, request) in enumerate(performed, start=1)
        ]
        run.entries += entries
        run.hot_sets.append(hot)
    return run


def open_auction(data: bytes, options: Options) -> tuple[Asked, Book]:
    """What an input asks, and the book of its rows; or the fault of the input."""
    asked = read_input(data, options.workers)
    check_lengths(Counter(worker for worker, _ in asked.rows))
    book = Book(options.users, options.categories)
    for number, (worker, request) in enumerate(asked.rows, start=1):
        if is_refusal(book.perform(worker, request)):
            raise Fault(NOT_PERFORMED, f"row {number}: refused")
    lengths = Counter(worker for worker, _ in asked.rows)
    lengths.update({worker: len(script) for worker, script in enumerate(asked.scripts)})
    check_lengths(lengths)
    return asked, book


def check_lengths(lengths: Counter) -> None:
    if any(length > MAX_FOR_A_WORKER for length in lengths.values()):
        raise Fault(NOT_PERFORMED, f"more than {MAX_FOR_A_WORKER} requests for a worker")


def expected(data: bytes, options: Options) -> Outcome:
    """The outcome of the program with one worker."""
    try:
        asked, book = open_auction(data, options)
    except Fault as fault:
        return failed(fault)
    run = run_alone(book, asked.scripts[0], options)
    text = commits_text(run, book, options) + added_text(run, book, options)
    return Outcome(0, text.encode("ascii"), b"")


def failed(fault: Fault) -> Outcome:
    return Outcome(fault.status, b"", f"rubis_auction: {fault.text}\n".encode("ascii"))


def commits_text(run: Run, book: Book, options: Options) -> str:
    if options.rows:
        return rows_text(book)
    return history_text(run) if options.history else replies_text(run)


def added_text(run: Run, book: Book, options: Options) -> str:
    return report_text(run, book) if options.report else ""


def replies_text(run: Run) -> str:
    in_order = sorted(run.entries, key=lambda entry: (entry.worker, entry.index))
    return "".join(f"{entry.worker},{entry.index},{entry.reply}\n" for entry in in_order)


def history_text(run: Run) -> str:
    return "".join(entry.line() for entry in run.entries)


def rows_text(book: Book) -> str:
    return "".join(row.text() for row in book.rows)


def report_text(run: Run, book: Book) -> str:
    refused = sum(not entry.is_accepted() for entry in run.entries)
    counts = f"phases {len(run.hot_sets)}\nrequests {len(run.entries)}\nrefused {refused}\n"
    return counts + hot_text(run) + views_text(book)


def hot_text(run: Run) -> str:
    lines = ((phase, " ".join(map(str, hot))) for phase, hot in enumerate(run.hot_sets) if hot)
    return "".join(f"hot {phase} {things}\n" for phase, things in lines)


def views_text(book: Book) -> str:
    categories = (f"category {number} {book.view(ViewCategory(number))}\n" for number in range(book.categories))
    commented = sorted({row.request.about for row in book.of_kind(Comment)})
    users = (f"user {number} {book.view(ViewUser(number)).removeprefix('user ')}\n" for number in commented)
    return "".join(categories) + "".join(users)
