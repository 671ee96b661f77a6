"""How long stashed requests wait, as a history shows it: in requests that are answered meanwhile."""
from typing import NamedTuple

# Its worker, and its place in the script.
Request = tuple[int, int]


class Late(NamedTuple):
    """A stashed request, the phase in which it was asked, and its line."""

    request: Request
    asked: int
    line: int


def reached(index: int, joined: int, split: int) -> int:
    """The phase in which a request commits unless it is stashed."""
    rounds, left = divmod(index, joined + split)
    return 2 * rounds + (left >= joined)


def of_history(path: str, joined: int, split: int) -> list[int]:
    """Of each stashed request, how many lines of the history come between where it was asked and its own: after the
    last one before it in its script that was not stashed, and in the phase in which it was."""
    line_of: dict[Request, int] = {}
    begun: dict[int, int] = {}
    late: list[Late] = []
    with open(path, "rb") as lines:
        for place, line in enumerate(lines):
            phase, _, worker, index = map(int, line.split(b" ", 4)[:4])
            begun.setdefault(phase, place)
            asked = reached(index, joined, split)
            if phase == asked:
                line_of[worker, index] = place
            else:
                late.append(Late((worker, index), asked, place))
    return [line - max(begun.get(asked, 0) - 1, before(line_of, request)) - 1 for request, asked, line in late]


def before(line_of: dict[Request, int], request: Request) -> int:
    """The line of the last request before one in its script that was not stashed."""
    worker, index = request
    while index >= 0 and (worker, index) not in line_of:
        index -= 1
    return line_of.get((worker, index), -1)
