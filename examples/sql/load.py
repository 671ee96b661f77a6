#!/usr/bin/env python3
"""Turns the rows that `rubis_auction --rows` writes into SQL that fills the tables of schema.sql.

    rubis_auction --rows OPTIONS < input | examples/sql/load.py --users N --categories N | psql

It reads standard input, keeps all rows in memory, and writes SQL for psql. Serials are counted by worker and kind, as
the auction does.
"""

import csv
import sys
from collections import Counter, defaultdict
from pathlib import Path
from typing import Iterable, Iterator

sys.path.append(str(Path(__file__).resolve().parents[1]))
from command_line import parser_of

TABLES = {"item": "items", "bid": "bids", "comment": "comments", "buynow": "purchases"}

# The columns of each table besides worker and serial, by the fields of its rows.
COLUMNS = {
    "item": "seller, category, name, start, closes, time, quantity",
    "bid": "bidder, item_worker, item_serial, amount, time",
    "comment": "author, about, item_worker, item_serial, stars",
    "buynow": "buyer, item_worker, item_serial, quantity, time",
}
# Which field of a row or request names an item.
ITEM_FIELD = {"bid": 1, "comment": 2, "buynow": 1, "viewitem": 0, "viewbids": 0}

# What is kept beside what it counts.
COUNTED = (
    "UPDATE items SET\n"
    "    bids = (SELECT count(*) FROM bids WHERE (item_worker, item_serial) = (items.worker, items.serial)),\n"
    "    remaining = items.quantity - (SELECT coalesce(sum(quantity), 0) FROM purchases"
    " WHERE (item_worker, item_serial) = (items.worker, items.serial));\n"
    "UPDATE users SET rating = sums.rating, comments = sums.comments\n"
    "FROM (SELECT about, sum(stars) AS rating, count(*) AS comments FROM comments GROUP BY about) AS sums"
    " WHERE about = id;\n"
)


def values(kind: str, fields: list[str]) -> list[str]:
    """The fields of a row or request as the columns of its table: an item's id is two, and a quantity that is left out
    is 1."""
    if kind == "item" and len(fields) == 6:
        return [*fields, "1"]
    at = ITEM_FIELD.get(kind)
    return fields if at is None else [*fields[:at], *fields[at].split("."), *fields[at + 1 :]]


def escaped(value: str) -> str:
    return value.replace("\\", "\\\\")


def filling(records: Iterable[list[str]], users: int, categories: int) -> Iterator[str]:
    """The lines of SQL that fill the tables with the rows of these records."""
    rows: dict[str, list[list[str]]] = defaultdict(list)
    serials: Counter[tuple[str, str]] = Counter()
    for worker, kind, *fields in records:
        kind = kind.removeprefix("+")
        rows[kind].append([worker, str(serials[kind, worker]), *values(kind, fields)])
        serials[kind, worker] += 1
    yield f"INSERT INTO users (id) SELECT generate_series(0, {users - 1});"
    yield f"INSERT INTO categories SELECT generate_series(0, {categories - 1});"
    for kind, table in TABLES.items():
        yield f"COPY {table} (worker, serial, {COLUMNS[kind]}) FROM stdin;"
        yield from ("\t".join(map(escaped, row)) for row in rows[kind])
        yield "\\."
    yield "COPY serials (worker, kind, next) FROM stdin;"
    yield from (f"{worker}\t{kind}\t{count}" for (kind, worker), count in serials.items())
    yield "\\."
    yield COUNTED


def main() -> None:
    words = parser_of(__doc__)
    words.add_argument("--users", type=int, default=100, help="users of the auction [default: 100]")
    words.add_argument("--categories", type=int, default=10, help="categories of the auction [default: 10]")
    asked = words.parse_args()
    print(*filling(filter(None, csv.reader(sys.stdin)), asked.users, asked.categories), sep="\n")


if __name__ == "__main__":
    main()
