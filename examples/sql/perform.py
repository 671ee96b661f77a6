#!/usr/bin/env python3
"""Performs scripts on PostgreSQL, with a connection for each worker, and writes the history, which `rubis_check` can
judge.

    createdb auction
    examples/sql/perform.py --database auction [--users N] [--categories N] [--keep | --unlocked] < input > history
    rubis_check --workers N --strict --history history < input

The database has to be empty, since the tables of schema.sql are made there; connections are psql's, so PGHOST and the
like hold. Rows are loaded, and then each request is a transaction: it locks the objects that it touches, calls a
function of transactions.sql, draws a number while it holds the locks, and commits. The history is in the order of the
numbers.

With --keep each transaction also writes its line into a table, which in the end is the history. A worker whose
connection breaks makes a new one, perhaps to another server (three.sh), and looks there whether its request was
performed: so each request is performed once. Standard error says how many lines that were acknowledged are not in the
table.

With --unlocked nothing is locked, nor is an item `FOR UPDATE` before it is bought: two buyers may get the last piece.
"""

import argparse
import csv
import sys
import time
from concurrent.futures import ThreadPoolExecutor
from functools import partial
from pathlib import Path
from subprocess import PIPE, Popen, run
from typing import Callable, NamedTuple, TypeVar

from load import ITEM_FIELD, filling, values

# load.py has put its folder on the path.
from command_line import end, installed, parser_of

SQL = Path(__file__).resolve().parent

# Of each kind of request its function, and which fields name a category or a user that it touches.
FUNCTIONS = {
    "item": ("store_item", "category", 1),
    "bid": ("store_bid", None, None),
    "comment": ("store_comment", "user", 1),
    "buynow": ("buy", None, None),
    "viewitem": ("view_item", None, None),
    "viewbids": ("view_bids", None, None),
    "viewcategory": ("view_category", "category", 0),
    "viewuser": ("view_user", "user", 0),
}

HISTORY = """\
CREATE SEQUENCE commits;
CREATE TABLE history (number bigint NOT NULL, worker int, index int, reply text NOT NULL, PRIMARY KEY (worker, index));
"""
LINE = "format('%s %s %s %s', number, worker, index, reply)"
COMMIT = ("COMMIT", "SELECT 'committed'")
# The status of a psql that has no connection, or no longer.
BROKEN = 2
# How often a connection is tried, and how many seconds pass in between.
TRIES, PAUSE = 120, 0.5
Result = TypeVar("Result")


class Line(NamedTuple):
    """A line of the history, but for its phase."""

    number: int
    worker: int
    index: int
    reply: str

    @classmethod
    def of(cls, text: str) -> "Line":
        *numbers, reply = text.split(" ", 3)
        return cls(*map(int, numbers), reply)


def call(worker: int, kind: str, fields: list[str]) -> str:
    """The call of SQL that a request is."""
    given = ([] if kind.startswith("view") else [str(worker)]) + values(kind, fields)
    return f"{FUNCTIONS[kind][0]}({', '.join(map(quoted, given))})"


def quoted(value: str) -> str:
    return "'" + value.replace("'", "''") + "'"


def objects(kind: str, fields: list[str]) -> list[str]:
    """What a request touches, items last: all transactions lock in one order, so that none waits for each other."""
    _, other, place = FUNCTIONS[kind]
    touched = [f"{other} {fields[place]}"] if other else []
    return touched + ([f"item {fields[ITEM_FIELD[kind]]}"] if kind in ITEM_FIELD else [])


class Worker:
    """A worker: its script, and a connection, which is a psql that is sent statements and prints what they give."""

    def __init__(self, number: int, script: list[list[str]], asked: argparse.Namespace) -> None:
        self.number, self.script, self.asked = number, script, asked
        self.broken = 0
        patiently(asked, self.connect)

    def connect(self) -> None:
        self.psql = Popen(psql(self.asked), stdin=PIPE, stdout=PIPE, stderr=PIPE, text=True)
        self.hear("SELECT 'connected'")

    def perform_script(self) -> list[Line]:
        """The lines of the script's requests, each of which has committed."""
        lines = [self.line(index, request) for index, request in enumerate(self.script)]
        self.psql.communicate()
        return lines

    def line(self, index: int, request: list[str]) -> Line:
        """Performs a request, through however many connections."""
        try:
            return self.perform(index, request)
        except ConnectionError as error:
            if not self.asked.keep:
                raise SystemExit(f"worker {self.number}: {error}")
        self.broken += 1
        return patiently(self.asked, partial(self.find_or_perform, index, request))

    def find_or_perform(self, index: int, request: list[str]) -> Line:
        self.connect()
        return self.find(index) or self.perform(index, request)

    def perform(self, index: int, request: list[str]) -> Line:
        kind, *fields = request
        reply = self.hear(*self.begin(objects(kind, fields)), f"SELECT {call(self.number, kind, fields)}")
        # Nobody sees a new item before the commit; whoever looked for it before has committed once its lock is had.
        stored = [reply] if reply.startswith("item ") else []
        number = self.hear(*self.locks(stored), "SELECT nextval('commits')")
        line = Line(int(number), self.number, index, reply)
        kept = f"INSERT INTO history VALUES ({line.number}, {line.worker}, {line.index}, {quoted(reply)})"
        self.hear(*([kept] if self.asked.keep else []), *COMMIT)
        return line

    def find(self, index: int) -> Line | None:
        """The line of a request that a broken connection has performed. It is written again: so its commit, too, waits
        for a standby."""
        place = f"worker = {self.number} AND index = {index}"
        found = f"UPDATE history SET reply = reply WHERE {place} RETURNING {LINE} AS line"
        told = self.hear(*self.begin([]), f"WITH found AS ({found}) SELECT coalesce(max(line), 'none') FROM found")
        self.hear(*COMMIT)
        return None if told == "none" else Line.of(told)

    def begin(self, names: list[str]) -> list[str]:
        """Statements that begin a transaction and lock objects, once the worker's transaction before it has ended."""
        return ["BEGIN", *self.locks([f"worker {self.number}", *names])]

    def locks(self, names: list[str]) -> list[str]:
        """Statements that lock objects until the transaction ends, and print empty lines."""
        if self.asked.unlocked:
            return []
        return [f"SELECT pg_advisory_xact_lock(hashtextextended({quoted(name)}, 0))" for name in names]

    def hear(self, *statements: str) -> str:
        """Sends statements to the server, in one message, and gives the first line with something on it that they
        print."""
        try:
            self.psql.stdin.write("\\; ".join(statements) + ";\n")
            self.psql.stdin.flush()
            return next(line for line in self.psql.stdout if line != "\n").removesuffix("\n")
        except (BrokenPipeError, StopIteration):
            _, said = self.psql.communicate()
        if self.psql.returncode == BROKEN:
            raise ConnectionError(said)
        raise SystemExit(f"worker {self.number}: {said}")


def psql(asked: argparse.Namespace) -> list[str]:
    return ["psql", "-qAtX", "-v", "ON_ERROR_STOP=1", *(["-d", asked.database] if asked.database else [])]


def patiently(asked: argparse.Namespace, act: Callable[[], Result]) -> Result:
    """What an act gives; with --keep it is tried again while there is no connection."""
    for _ in range(TRIES if asked.keep else 1):
        try:
            return act()
        except ConnectionError as error:
            said = error
            time.sleep(PAUSE)
    raise SystemExit(f"no connection: {said}")


def ask(asked: argparse.Namespace, text: str) -> list[str]:
    ran = run(psql(asked), input=text, text=True, stdout=PIPE, stderr=PIPE)
    if ran.returncode == BROKEN:
        raise ConnectionError(ran.stderr)
    if ran.returncode:
        raise SystemExit(ran.stderr)
    return ran.stdout.splitlines()


def open_auction(rows: list[list[str]], asked: argparse.Namespace) -> None:
    code = "".join((SQL / name).read_text() for name in ("schema.sql", "views.sql", "transactions.sql"))
    if asked.unlocked:
        code = code.replace(" FOR UPDATE;", ";")
    ask(asked, "\n".join(["BEGIN;", code, *filling(rows, asked.users, asked.categories), HISTORY, "COMMIT;"]))


def options() -> argparse.Namespace:
    words = parser_of(__doc__)
    words.add_argument("--database", help="an empty database [default: psql's]")
    words.add_argument("--users", type=int, default=100, help="users of the auction [default: 100]")
    words.add_argument("--categories", type=int, default=10, help="categories of the auction [default: 10]")
    one_of = words.add_mutually_exclusive_group()
    one_of.add_argument(
        "--keep", action="store_true", help="keep the history in a table, and go on after a broken connection"
    )
    one_of.add_argument("--unlocked", action="store_true", help="lock nothing")
    asked = words.parse_args()
    installed("psql", "postgresql-client")
    return asked


def main() -> None:
    asked = options()
    records = [record for record in csv.reader(sys.stdin) if record]
    rows = [record for record in records if record[1].startswith("+")]
    scripts: list[list[list[str]]] = [[] for _ in range(1 + max((int(record[0]) for record in records), default=0))]
    for worker, *request in records[len(rows) :]:
        scripts[int(worker)].append(request)
    try:
        open_auction(rows, asked)
    except ConnectionError as fault:
        end(str(fault))
    workers = [Worker(number, script, asked) for number, script in enumerate(scripts)]
    with ThreadPoolExecutor(len(workers)) as threads:
        lines = {line for lines in threads.map(Worker.perform_script, workers) for line in lines}
    if asked.keep:
        kept = set(map(Line.of, patiently(asked, partial(ask, asked, f"SELECT {LINE} FROM history;"))))
        broken = sum(worker.broken for worker in workers)
        told = f"{len(lines)} requests acknowledged, {len(lines - kept)} of them lost; {broken} connections broken"
        print(told, file=sys.stderr)
        lines = kept
    for line in sorted(lines):
        print(0, *line)


if __name__ == "__main__":
    main()
