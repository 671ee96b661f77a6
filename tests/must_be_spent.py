#!/usr/bin/env python3
"""Shows that what has to be spent can be neither let go nor spent twice: a held shard, a permit of either kind
and a publisher; that a `Told` is learned once; and that no other crate reaches the log or the writer of a
teller, so that nothing is written past the log. Small functions that do so are made a crate beside the others,
in a copy of their sources, and `rt try` refuses each by the compiler's words. docs/GUARANTEES.md quotes them.
Without `rt` it is skipped.

    tests/must_be_spent.py
"""

import re
import shutil
import subprocess
import tempfile
from dataclasses import dataclass
from pathlib import Path

from lib.program import DOCUMENTS, Tally
from tutorial import copy_of_sources

CRATE = "spending"
LINE = f"{CRATE}: auction_rows shard_boxes phase_permits auction_window part_log program_serving\n"
HEAD = """//! Functions that let go what has to be spent, or spend it twice, or name what is private.
#![tactic(auto)]

use auction_window::{Publisher, Told, Window, WindowName};
use part_log::Teller;
use phase_permits::{JoinedPhase, Permit, SplitPhase};
use program_serving::LiveTeller;
use shard_boxes::{Boxes, Held, Key, PhaseName};
use std::sync::Wait;

"""
MAIN = "fn main(rt: HostRuntime) {}\n"
# An error with its line, its kind and what it says, up to a help or a note.
ERROR = re.compile(r"(?m)^src/main\.rt:(\d+):\d+: (error\[[\w-]+\]: .*?)(?:: (?:help|note): .*)?$")
QUOTED = re.compile(r"(?m)^    (error\[.*)$")
LET_GO = "error[linear-value-let-go]: `{0}` is let go where its block ends, and `{1}` is not `Drop`"
TWICE = "error[borrow-e0382]: use of moved value: `{0}`"
PRIVATE = "error[private-field]: field `{0}` of struct `{1}` is private"


@dataclass(frozen=True)
class Owned:
    """A type whose value has to be spent, as a parameter of a name, and a statement that spends it."""

    name: str
    type: str
    bounds: str
    spend: str
    beside: str = ""

    def function(self, what: str, body: str) -> str:
        return f"fn {what}<{self.bounds}>({self.beside}{self.name}: {self.type}) {{\n{body}}}\n\n"

    def let_go(self, number: int) -> str:
        return self.function(f"lets_go_{number}", "")

    def spent(self, number: int, times: int) -> str:
        return self.function(f"spends_{number}_{times}", f"    {self.spend}\n" * times)


OWNED = [
    Owned(
        "held",
        "Held<N>",
        "N: PhaseName, R: Wait",
        "boxes.put(rt, key, held, None);",
        "rt: &R, boxes: &Boxes<N>, key: &mut Key<N>, ",
    ),
    Owned("permit", "Permit<N, JoinedPhase>", "N: PhaseName", "let _ = permit.finish();"),
    Owned("permit", "Permit<N, SplitPhase>", "N: PhaseName", "let _ = permit.finish();"),
    Owned("publisher", "Publisher<J>", "J: WindowName, R: Wait", "publisher.end(rt);", "rt: &R, "),
]
# It may be let go.
TOLD = Owned("told", "Told<J>", "J: WindowName", "window.learn(told);", "window: &mut Window<J>, ")
# What a teller has, by its struct, that struct's parameters, and the type of the field.
REACHED = [
    ("log", "Teller", "L, W", "L"),
    ("writer", "Teller", "L, W", "W"),
    ("teller", "LiveTeller", "L, W, E", "Teller<L, W>"),
]


def reach(number: int, field: str, owner: str, parameters: str, type: str) -> str:
    """A function that hands out a private field of a teller."""
    head = f"fn reaches_{number}<'a, {parameters}>(teller: &'a mut {owner}<{parameters}>) -> &'a mut {type}"
    return f"{head} {{\n    &mut teller.{field}\n}}\n\n"


def refused(source: Path, functions: list[str]) -> list[str]:
    """What the compiler says of these functions, in their order: an error for each, inside it."""
    source.write_text(HEAD + "".join(functions) + MAIN)
    got = subprocess.run(
        ["rt", "try"],
        cwd=source.parent.parent,
        stdin=subprocess.DEVNULL,
        capture_output=True,
        text=True,
        errors="replace",
    )
    found = [(int(line), said) for line, said in ERROR.findall(got.stdout + got.stderr)]
    ends, at = [], HEAD.count("\n")
    for function in functions:
        at += function.count("\n")
        ends.append(at)
    places = [next((n for n, end in enumerate(ends) if line <= end), None) for line, _ in found]
    return (
        [said for _, said in found]
        if got.returncode != 0 and places == sorted(set(places))
        else [f"status {got.returncode}, {found}"]
    )


def main() -> None:
    tally = Tally()
    if shutil.which("rt") is None:
        tally.skip("what has to be spent can be neither let go nor spent twice", "there is no `rt` on the path")
        tally.finish()
    with tempfile.TemporaryDirectory() as folder:
        copy_of_sources(Path(folder))
        with (Path(folder) / "crates.txt").open("a") as file:
            file.write(LINE)
        source = Path(folder) / "crates" / CRATE / "src" / "main.rt"
        source.parent.mkdir(parents=True)
        once = [owned.spent(number, 1) for number, owned in enumerate(OWNED)]
        let_go = [LET_GO.format(owned.name, owned.type) for owned in OWNED]
        # What is spent once is no error, so each error is of what is not.
        got = refused(source, once + [owned.let_go(number) for number, owned in enumerate(OWNED)])
        tally.check(got == let_go, f"what is let go is refused: wanted {let_go}; got {got}")
        twice = [TWICE.format(owned.name) for owned in [*OWNED, TOLD]]
        got = refused(source, once + [owned.spent(number, 2) for number, owned in enumerate([*OWNED, TOLD])])
        tally.check(got == twice, f"what is spent twice is refused: wanted {twice}; got {got}")
        private = [PRIVATE.format(field, owner) for field, owner, *_ in REACHED]
        got = refused(source, once + [reach(number, *what) for number, what in enumerate(REACHED)])
        tally.check(got == private, f"nothing is written past the log: wanted {private}; got {got}")
        quoted = QUOTED.findall((DOCUMENTS / "GUARANTEES.md").read_text())
        tally.check(set(quoted) <= set(let_go + twice), f"docs/GUARANTEES.md quotes what the compiler says: {quoted}")
    tally.finish()


if __name__ == "__main__":
    main()
