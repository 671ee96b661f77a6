"""Running a program to which allocations are refused, by the shim of refused_memory.c."""

import itertools
import os
from dataclasses import dataclass
from pathlib import Path
from typing import Iterator

from lib.model import Outcome
from lib.program import run

ENDLESS = 2**62
UNREACHED_IN_A_ROW = 3


@dataclass(frozen=True)
class Refusal:
    """Which allocations are refused to a run, counted from 1, and how it ended."""

    number: int
    and_all_after: bool
    was_reached: bool
    outcome: Outcome

    def __str__(self) -> str:
        return f"allocation {self.number}{' and all after' if self.and_all_after else ''} refused"


@dataclass(frozen=True)
class Refusing:
    shim: Path
    command: list
    data: bytes = b""

    def each(self, and_all_after: bool) -> Iterator[Refusal]:
        """A run in which the first allocation is refused, one for the second, and so on, until runs ask for no more."""
        unreached = 0
        for number in itertools.count(1):
            refusal = self.refusal(number, and_all_after)
            yield refusal
            unreached = 0 if refusal.was_reached else unreached + 1
            if unreached == UNREACHED_IN_A_ROW:
                return

    def refusal(self, number: int, and_all_after: bool) -> Refusal:
        told, tell = os.pipe()
        last = ENDLESS if and_all_after else number
        environment = {
            "LD_PRELOAD": str(self.shim),
            "REFUSE_FROM": str(number),
            "REFUSE_TO": str(last),
            "REFUSE_TOLD": str(tell),
        }
        os.set_blocking(tell, False)
        outcome = run(self.command, self.data, env=os.environ | environment, pass_fds=[tell])
        os.close(tell)
        with open(told, "rb") as reader:
            return Refusal(number, and_all_after, bool(reader.read()), outcome)
