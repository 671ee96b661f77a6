"""The auction in SQLite in memory, for bench/run alone: one connection, statements prepared once, a transaction for
each request. Nothing is durable, and a transaction that fails is rolled back."""
import time
from typing import Any

from loads import Record, Script

try:
    import sqlite3
except ImportError:
    sqlite3 = None

SCHEMA = """
CREATE TABLE users (id INTEGER PRIMARY KEY, rating INTEGER NOT NULL, comments INTEGER NOT NULL);
CREATE TABLE categories (id INTEGER PRIMARY KEY);
CREATE TABLE items (
    worker INTEGER, serial INTEGER, seller INTEGER NOT NULL, category INTEGER NOT NULL, name TEXT NOT NULL,
    start INTEGER NOT NULL, closes INTEGER NOT NULL, time INTEGER NOT NULL, remaining INTEGER NOT NULL,
    bids INTEGER NOT NULL, PRIMARY KEY (worker, serial)) WITHOUT ROWID;
CREATE INDEX latest ON items (category, time DESC, worker DESC, serial DESC);
CREATE TABLE bids (
    worker INTEGER, serial INTEGER, bidder INTEGER NOT NULL, item_worker INTEGER NOT NULL, item_serial INTEGER NOT NULL,
    amount INTEGER NOT NULL, time INTEGER NOT NULL, PRIMARY KEY (worker, serial)) WITHOUT ROWID;
CREATE INDEX greatest_bids ON bids (item_worker, item_serial, amount DESC, time DESC, worker DESC, serial DESC, bidder);
CREATE TABLE remarks (
    worker INTEGER, serial INTEGER, author INTEGER NOT NULL, about INTEGER NOT NULL, item_worker INTEGER NOT NULL,
    item_serial INTEGER NOT NULL, stars INTEGER NOT NULL, PRIMARY KEY (worker, serial)) WITHOUT ROWID;
CREATE TABLE purchases (
    worker INTEGER, serial INTEGER, buyer INTEGER NOT NULL, item_worker INTEGER NOT NULL, item_serial INTEGER NOT NULL,
    quantity INTEGER NOT NULL, time INTEGER NOT NULL, PRIMARY KEY (worker, serial)) WITHOUT ROWID;
"""

USER = "SELECT 1 FROM users WHERE id = ?"
CATEGORY = "SELECT 1 FROM categories WHERE id = ?"
ITEM = "SELECT start, closes FROM items WHERE worker = ? AND serial = ?"
BID_COUNTED = """UPDATE items SET bids = bids + 1
    WHERE worker = ? AND serial = ? AND ? >= start AND ? < closes AND remaining > 0"""
TAKEN = """UPDATE items SET remaining = remaining - ?
    WHERE worker = ? AND serial = ? AND ? < closes AND remaining >= ?"""
BID = "INSERT INTO bids VALUES (?, ?, ?, ?, ?, ?, ?)"
PURCHASE = "INSERT INTO purchases VALUES (?, ?, ?, ?, ?, ?, ?)"
REMARK = "INSERT INTO remarks VALUES (?, ?, ?, ?, ?, ?, ?)"
RATED = "UPDATE users SET rating = rating + ?, comments = comments + 1 WHERE id = ?"
STORED = "INSERT INTO items VALUES (?, ?, ?, ?, ?, ?, ?, ?, ?, 0)"
VIEW_ITEM = """SELECT seller, category, start, closes, amount, bidder, bids, remaining, name
    FROM items LEFT JOIN (
        SELECT amount, bidder FROM bids WHERE item_worker = ?1 AND item_serial = ?2
        ORDER BY amount DESC, time DESC, worker DESC, serial DESC LIMIT 1)
    WHERE worker = ?1 AND serial = ?2"""
VIEW_BIDS = """SELECT amount, time, bidder, worker, serial FROM bids WHERE item_worker = ? AND item_serial = ?
    ORDER BY amount DESC, time DESC, worker DESC, serial DESC LIMIT 10"""
VIEW_CATEGORY = """SELECT time, worker, serial FROM items WHERE category = ?
    ORDER BY time DESC, worker DESC, serial DESC LIMIT 10"""
VIEW_USER = "SELECT rating, comments FROM users WHERE id = ?"
EMPTY = "SELECT 1"


# The kind of a reply, and its values.
Reply = tuple[Any, ...]


class Refused(Exception):
    """A request is refused; the transaction is rolled back."""


class Auction:
    def __init__(self, users: int, categories: int) -> None:
        self.database = sqlite3.connect(":memory:", isolation_level=None, cached_statements=100)
        self.database.executescript(SCHEMA)
        self.run = self.database.execute
        self.run("BEGIN")
        self.database.executemany("INSERT INTO users VALUES (?, 0, 0)", ((user,) for user in range(users)))
        numbers = ((number,) for number in range(categories))
        self.database.executemany("INSERT INTO categories VALUES (?)", numbers)
        self.run("COMMIT")
        self.serials: dict[tuple[str, int], int] = {}
        self.acts = {
            "item": self.item,
            "bid": self.bid,
            "comment": self.comment,
            "buynow": self.buy,
            "viewitem": self.view_item,
            "viewbids": self.view_bids,
            "viewcategory": self.view_category,
            "viewuser": self.view_user,
        }

    def act(self, request: Record) -> Reply:
        """What a request does: its reply as values, which `text_of` makes a text of."""
        try:
            return self.acts[request.kind](request)
        except Refused as refusal:
            self.run("ROLLBACK")
            return ("refused", str(refusal))

    def serial(self, kind: str, worker: int) -> int:
        serial = self.serials.get((kind, worker), 0)
        self.serials[kind, worker] = serial + 1
        return serial

    def known(self, statement: str, number: int | None, refusal: str) -> None:
        if self.run(statement, (number,)).fetchone() is None:
            raise Refused(refusal)

    def item(self, r: Record) -> Reply:
        self.run("BEGIN")
        self.known(USER, r.who, "1 NoSuchUser")
        self.known(CATEGORY, r.other, "2 NoSuchCategory")
        serial = self.serial("item", r.worker)
        self.run(STORED, (r.worker, serial, r.who, r.other, r.name, r.start, r.closes, r.time, r.number))
        self.run("COMMIT")
        return ("item", r.worker, serial)

    def bid(self, r: Record) -> Reply:
        self.run("BEGIN")
        self.known(USER, r.who, "1 NoSuchUser")
        if self.run(BID_COUNTED, (r.item_worker, r.item_serial, r.amount, r.time)).rowcount == 0:
            raise Refused(self.bid_refusal(r))
        serial = self.serial("bid", r.worker)
        self.run(BID, (r.worker, serial, r.who, r.item_worker, r.item_serial, r.amount, r.time))
        self.run("COMMIT")
        return ("bid", r.worker, serial)

    def bid_refusal(self, r: Record) -> str:
        found = self.run(ITEM, (r.item_worker, r.item_serial)).fetchone()
        if found is None:
            return "3 NoSuchItem"
        if r.amount < found[0]:
            return "4 BelowStart"
        return "5 Closed" if r.time >= found[1] else "6 SoldOut"

    def comment(self, r: Record) -> Reply:
        self.run("BEGIN")
        self.known(USER, r.who, "1 NoSuchUser")
        self.known(USER, r.other, "1 NoSuchUser")
        if self.run(ITEM, (r.item_worker, r.item_serial)).fetchone() is None:
            raise Refused("3 NoSuchItem")
        serial = self.serial("comment", r.worker)
        self.run(REMARK, (r.worker, serial, r.who, r.other, r.item_worker, r.item_serial, r.number))
        self.run(RATED, (r.number, r.other))
        self.run("COMMIT")
        return ("comment", r.worker, serial)

    def buy(self, r: Record) -> Reply:
        self.run("BEGIN")
        self.known(USER, r.who, "1 NoSuchUser")
        if self.run(TAKEN, (r.number, r.item_worker, r.item_serial, r.time, r.number)).rowcount == 0:
            found = self.run(ITEM, (r.item_worker, r.item_serial)).fetchone()
            raise Refused("3 NoSuchItem" if found is None else "5 Closed" if r.time >= found[1] else "7 NotEnough")
        serial = self.serial("buynow", r.worker)
        self.run(PURCHASE, (r.worker, serial, r.who, r.item_worker, r.item_serial, r.number, r.time))
        self.run("COMMIT")
        return ("buynow", r.worker, serial)

    # A view of one statement is a transaction; the others begin one.

    def view_item(self, r: Record) -> Reply:
        found = self.run(VIEW_ITEM, (r.item_worker, r.item_serial)).fetchone()
        return ("refused", "3 NoSuchItem") if found is None else ("viewitem", found)

    def view_bids(self, r: Record) -> Reply:
        self.run("BEGIN")
        if self.run(ITEM, (r.item_worker, r.item_serial)).fetchone() is None:
            raise Refused("3 NoSuchItem")
        found = self.run(VIEW_BIDS, (r.item_worker, r.item_serial)).fetchall()
        self.run("COMMIT")
        return ("bids", found)

    def view_category(self, r: Record) -> Reply:
        self.run("BEGIN")
        self.known(CATEGORY, r.who, "2 NoSuchCategory")
        found = self.run(VIEW_CATEGORY, (r.who,)).fetchall()
        self.run("COMMIT")
        return ("latest", found)

    def view_user(self, r: Record) -> Reply:
        found = self.run(VIEW_USER, (r.who,)).fetchone()
        return ("refused", "1 NoSuchUser") if found is None else ("user", found)


def text_of(reply: Reply) -> str:
    """The reply as the auction writes it."""
    kind, values = reply[0], reply[1:]
    if kind == "refused":
        return f"refused {values[0]}"
    if kind == "viewitem":
        names = ("seller", "category", "start", "closes", "highest", "bidder", "bids", "left", "name")
        shown = ("-" if value is None else value for value in values[0])
        return "viewitem " + " ".join(f"{name}={value}" for name, value in zip(names, shown))
    if kind == "bids":
        return "bids" + "".join(f" {amount}:{at}:{bidder}:{w}.{s}" for amount, at, bidder, w, s in values[0])
    if kind == "latest":
        return "latest" + "".join(f" {at}:{w}.{s}" for at, w, s in values[0])
    if kind == "user":
        return "user rating={} comments={}".format(*values[0])
    return "{} {}.{}".format(kind, *values)


def perform(rows: list[Record], scripts: list[Script], users: int, categories: int) -> tuple[list[list[Reply]], int]:
    """Stores the rows, then performs the scripts, 64 requests of each worker in turn. Gives each worker's replies and
    the nanoseconds of the scripts."""
    auction = Auction(users, categories)
    for row in rows:
        auction.act(row)
    act, replies = auction.act, [list[Reply]() for _ in scripts]
    longest = max((len(script) for script in scripts), default=0)
    begun = time.perf_counter_ns()
    for first in range(0, longest, 64):
        for own, script in zip(replies, scripts):
            own.extend(map(act, script[first : first + 64]))
    return replies, time.perf_counter_ns() - begun


def empty_statement() -> float:
    """The nanoseconds of a statement that asks for nothing: what the way from Python to SQLite and back takes."""
    run, tries = sqlite3.connect(":memory:", isolation_level=None).execute, 200_000
    begun = time.perf_counter_ns()
    for _ in range(tries):
        run(EMPTY).fetchone()
    return (time.perf_counter_ns() - begun) / tries
