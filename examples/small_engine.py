#!/usr/bin/env python3
"""An auction of two copies, which performs an input in a random order of the workers and writes its history for
`rubis_check`.

    python3 examples/small_engine.py INPUT SEED > history
    rubis_check --workers N --strict --history history < INPUT

It commits on the first copy. With --stale it has a bug: views of items read the second copy, which is refreshed every
third commit.
"""
import copy
import csv
import random
import re
import signal
from argparse import ArgumentParser, Namespace
from pathlib import Path
from typing import Iterator

from command_line import end, parser_of

N, ITEM = "[0-9]+", r"[0-9]+\.[0-9]+"
# A row or a request, with tabs between its fields.
RECORD = re.compile(
    rf"{N}\t(\+?(item\t{N}\t{N}\t[ -~]+(\t{N}){{3,4}}|(bid|buynow)\t{N}\t{ITEM}\t{N}\t{N}"
    rf"|comment\t{N}\t{N}\t{ITEM}\t-?[0-5])|view(item|bids)\t{ITEM}|view(category|user)\t{N})"
)
# Of each worker its requests, each with its kind and its fields.
Scripts = dict[int, list[tuple[str, list[str]]]]


class Auction:
    def __init__(self, users: int, categories: int) -> None:
        self.users, self.categories = users, categories
        self.items, self.bids, self.sold, self.comments, self.latest, self.serials = {}, {}, {}, {}, {}, {}

    def refusal(self, kind: str, fields: list[str]) -> str | None:
        users = {"item": 1, "bid": 1, "comment": 2, "buynow": 1, "viewuser": 1}.get(kind, 0)
        if any(int(user) >= self.users for user in fields[:users]):
            return "1 NoSuchUser"
        category = {"item": 1, "viewcategory": 0}.get(kind)
        if category is not None and int(fields[category]) >= self.categories:
            return "2 NoSuchCategory"
        place = {"bid": 1, "comment": 2, "buynow": 1, "viewitem": 0, "viewbids": 0}.get(kind)
        if place is None:
            return None
        if fields[place] not in self.items:
            return "3 NoSuchItem"
        item = self.items[fields[place]]
        left = item["quantity"] - self.sold[fields[place]]
        if kind == "bid" and int(fields[2]) < item["start"]:
            return "4 BelowStart"
        if kind in ("bid", "buynow") and int(fields[3]) >= item["closes"]:
            return "5 Closed"
        if kind == "bid" and left == 0:
            return "6 SoldOut"
        if kind == "buynow" and int(fields[2]) > left:
            return "7 NotEnough"
        return None

    def new_id(self, worker: int, kind: str) -> tuple[int, int]:
        serial = self.serials.get((worker, kind), 0)
        self.serials[worker, kind] = serial + 1
        return (worker, serial)

    def store(self, worker: int, kind: str, fields: list[str]) -> str:
        one = self.new_id(worker, kind)
        name = f"{one[0]}.{one[1]}"
        if kind == "item":
            seller, category, title, start, closes, time, *quantity = fields
            self.items[name] = {"seller": seller, "category": category, "name": title, "start": int(start),
                                "closes": int(closes), "quantity": int(quantity[0]) if quantity else 1}
            self.bids[name], self.sold[name] = [], 0
            self.latest.setdefault(category, []).append((int(time), *one))
        elif kind == "bid":
            self.bids[fields[1]].append((int(fields[2]), int(fields[3]), *one, fields[0]))
        elif kind == "comment":
            self.comments.setdefault(fields[1], []).append(int(fields[3]))
        else:
            self.sold[fields[1]] += int(fields[2])
        return f"{kind} {name}"

    def view(self, kind: str, name: str) -> str:
        if kind == "viewuser":
            stars = self.comments.get(name, [])
            return f"user rating={sum(stars)} comments={len(stars)}"
        if kind == "viewcategory":
            best = sorted(self.latest.get(name, []), reverse=True)[:10]
            return "latest" + "".join(f" {time}:{worker}.{serial}" for time, worker, serial in best)
        best = sorted(self.bids[name], reverse=True)
        if kind == "viewbids":
            return "bids" + "".join(f" {b[0]}:{b[1]}:{b[4]}:{b[2]}.{b[3]}" for b in best[:10])
        item, lead = self.items[name], (best[0][0], best[0][4]) if best else ("-", "-")
        return (
            f"viewitem seller={item['seller']} category={item['category']} start={item['start']}"
            f" closes={item['closes']} highest={lead[0]} bidder={lead[1]} bids={len(best)}"
            f" left={item['quantity'] - self.sold[name]} name={item['name']}"
        )

    def answer(self, worker: int, kind: str, fields: list[str]) -> str:
        reason = self.refusal(kind, fields)
        if reason:
            return f"refused {reason}"
        return self.view(kind, fields[0]) if kind.startswith("view") else self.store(worker, kind, fields)


def records_of(path: str) -> Iterator[list[str]]:
    lines = csv.reader(Path(path).read_text().splitlines())
    for record in filter(None, lines):
        if not RECORD.fullmatch("\t".join(record)):
            end(f"{path}, line {lines.line_num}: no row and no request")
        yield record


def opened(asked: Namespace) -> tuple[Auction, Scripts]:
    """The auction with the rows of an input, and the scripts of its workers."""
    scripts, auction = {}, Auction(asked.users, asked.categories)
    for worker, kind, *fields in records_of(asked.input):
        if not kind.startswith("+"):
            scripts.setdefault(int(worker), []).append((kind, fields))
        elif reason := auction.refusal(kind[1:], fields):
            end(f"{asked.input}: a row is refused: {reason}")
        else:
            auction.store(int(worker), kind[1:], fields)
    return auction, scripts


def words_of(text: str) -> ArgumentParser:
    words = parser_of(text)
    words.add_argument("input", metavar="INPUT", help="rows and scripts, as docs/FORMATS.md has them")
    words.add_argument("--users", type=int, default=100, help="users of the auction [default: 100]")
    words.add_argument("--categories", type=int, default=10, help="categories of the auction [default: 10]")
    return words


def main() -> None:
    # Who reads the history may have seen enough before its end.
    signal.signal(signal.SIGPIPE, signal.SIG_DFL)
    words = words_of(__doc__)
    words.add_argument("seed", metavar="SEED", help="a text that gives the order")
    words.add_argument("--stale", action="store_true", help="views of items read the second copy")
    asked = words.parse_args()
    (auction, scripts), picks, done = opened(asked), random.Random(asked.seed), {}
    turns = [worker for worker, script in scripts.items() for _ in script]
    picks.shuffle(turns)
    for number, worker in enumerate(turns):
        if asked.stale and number % 3 == 0:
            old = copy.deepcopy(auction)
        index = done[worker] = done.get(worker, -1) + 1
        kind, fields = scripts[worker][index]
        reader = old if asked.stale and kind == "viewitem" else auction
        print(0, number, worker, index, reader.answer(worker, kind, fields))


if __name__ == "__main__":
    main()
