#!/usr/bin/env python3
"""A client of the auction: starts it, sends one request, sends many at once, and closes it.

    examples/client.py PROGRAM [OPTION..]

PROGRAM is rubis_auction; the options go to it, for example --log auction.rows."""

import argparse
import subprocess
from collections import Counter
from pathlib import Path
from typing import Any, NoReturn

from command_line import end, parser_of

# So many requests are sent before their replies are read: they fit into a pipe, so that neither side waits for the
# other.
BLOCK = 300


class Refused(Exception):
    """The program has ended: its words, and its status."""


class Auction:
    """An auction in a process of its own. A request is the text of its record without the worker, such as
    `bid,1,0.0,500,3`."""

    def __init__(self, program: str | Path, *options: str | Path, most: int = 1000, **how: Any) -> None:
        words = [program, "--live", str(most), *options]
        pipes = dict.fromkeys(("stdin", "stdout", "stderr"), subprocess.PIPE)
        # Python ignores the signal of a log past `ulimit -f`, and so does the program then, which tells it.
        self.process = subprocess.Popen(words, restore_signals=False, **pipes, **how)
        self.sent = Counter()

    def one(self, request: str, worker: int = 0) -> str:
        """The reply to a request."""
        return self.many([(worker, request)])[0]

    def many(self, requests: list[tuple[int, str]]) -> list[str]:
        """The replies to requests, each with its worker, in the order of the requests."""
        blocks = [requests[at : at + BLOCK] for at in range(0, len(requests), BLOCK)]
        return [reply for block in blocks for reply in self.block(block)]

    def block(self, requests: list[tuple[int, str]]) -> list[str]:
        places = []
        for worker, _ in requests:
            places.append((worker, self.sent[worker]))
            self.sent[worker] += 1
        self.write("".join(f"{worker},{request}\n" for worker, request in requests))
        replies = dict(self.reply() for _ in requests)
        return [replies[place] for place in places]

    def write(self, text: str) -> None:
        try:
            self.process.stdin.write(text.encode())
            self.process.stdin.flush()
        except BrokenPipeError:
            self.refuse()

    def reply(self) -> tuple[tuple[int, int], str]:
        """The next line: worker and index of a request, and its reply."""
        line = self.process.stdout.readline().decode()
        if not line.endswith("\n"):
            self.refuse()
        worker, index, text = line[:-1].split(",", 2)
        return (int(worker), int(index)), text

    def refuse(self) -> NoReturn:
        words = self.process.stderr.read().decode()
        raise Refused(words.strip(), self.process.wait())

    def close(self) -> None:
        """Ends the input, and waits for the program."""
        self.process.stdin.close()
        if self.process.wait() != 0:
            self.refuse()


def ask(auction: Auction) -> None:
    print(auction.one("item,0,0,Vase,10,100,1"))
    print(*auction.many([(0, "bid,1,0.0,500,3"), (0, "bid,2,0.0,700,4"), (0, "viewitem,0.0")]), sep="\n")
    auction.close()


def main() -> None:
    words = parser_of(__doc__)
    words.add_argument("program", metavar="PROGRAM", help="rubis_auction")
    words.add_argument("options", metavar="OPTION", nargs=argparse.REMAINDER, help="options of it")
    asked = words.parse_args()
    try:
        ask(Auction(asked.program, *asked.options))
    except Refused as refused:
        said, status = refused.args
        end(said or f"{asked.program} ended with status {status}")


if __name__ == "__main__":
    main()
