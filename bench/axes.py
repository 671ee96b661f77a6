"""What plots are drawn of, as SVG: axes with their tics, curves and points."""
import math
import sys
from pathlib import Path
from typing import Collection, Iterable, Iterator, NamedTuple

sys.path.append(str(Path(__file__).resolve().parents[1] / "examples"))
from svg import GREY, INK, line, text

# Of a picture that a page shows.
WIDTH = 600

# What stands at a place of an axis.
Tic = tuple[float, str]


class Axis(NamedTuple):
    """From which value to which, and from which place to which."""

    least: float
    most: float
    begin: float
    end: float
    is_log: bool = False

    def at(self, value: float) -> float:
        part = (value - self.least) / (self.most - self.least)
        if self.is_log:
            part = math.log(value / self.least) / math.log(self.most / self.least)
        return self.begin + part * (self.end - self.begin)


def decades(values: Collection[float]) -> list[float]:
    """The powers of ten about some values, with the first below and the last above."""
    first, last = math.floor(math.log10(min(values))), math.ceil(math.log10(max(values)) + 1e-9)
    return [10.0**power for power in range(first, last + 1)]


def rounds(values: Collection[float]) -> list[float]:
    """The powers of ten about some values, with twice and five times each: from the last that is not above the values
    to the first that is not below."""
    found = [part * times for part in decades(values) for times in (1, 2, 5)]
    first = max(at for at, value in enumerate(found) if value <= min(values))
    last = next(at for at, value in enumerate(found) if value >= max(values))
    return found[first : last + 1]


def steps(most: float) -> list[float]:
    """Some round steps from 0 to the first that is not below the most."""
    step = 10.0 ** math.floor(math.log10(most / 4))
    step *= next(times for times in (1, 2, 5, 10) if most / (step * times) <= 8)
    return [step * count for count in range(math.ceil(most / step - 1e-9) + 1)]


def short(value: float) -> str:
    """A number of an axis, with k or M."""
    for size, letter in ((1e6, "M"), (1e3, "k")):
        if value >= size:
            return f"{value / size:g}{letter}"
    return f"{value:g}"


def path(points: Iterable[tuple[float, float]], stroke: str, width: float = 2.0, dashes: str = "") -> str:
    dashed = f' stroke-dasharray="{dashes}"' if dashes else ""
    places = " ".join(f"{x:.1f},{y:.1f}" for x, y in points)
    return f'<polyline points="{places}" fill="none" stroke="{stroke}" stroke-width="{width:g}"{dashed}/>'


def mark(x: float, y: float, colour: str, corners: int) -> str:
    """A point: a disc, or a shape with so many corners, one above; or with a minus none above."""
    if not corners:
        return f'<circle cx="{x:.1f}" cy="{y:.1f}" r="4.5" fill="{colour}"/>'
    turns = [math.pi * ((2 * corner + (corners < 0)) / abs(corners) - 0.5) for corner in range(abs(corners))]
    places = " ".join(f"{x + 6 * math.cos(turn):.1f},{y + 6 * math.sin(turn):.1f}" for turn in turns)
    return f'<polygon points="{places}" fill="{colour}"/>'


def spread(x: float, low: float, high: float, colour: str) -> str:
    """A bar from the least of some tries to the greatest."""
    return line(x, low, x, high, colour, 1.5) + "".join(line(x - 4, y, x + 4, y, colour, 1.5) for y in (low, high))


def frame(
    across: Axis, up: Axis, tics_across: Iterable[Tic], tics_up: Iterable[Tic], labels: tuple[str, str]
) -> Iterator[str]:
    """Grid, axes and tics, each tic a value and its words; and what the axes are called, the one below perhaps in
    lines."""
    for value, words in tics_up:
        yield line(across.begin, up.at(value), across.end, up.at(value))
        yield text(across.begin - 8, up.at(value) + 5, words, anchor="end")
    for value, words in tics_across:
        yield line(across.at(value), up.begin, across.at(value), up.end)
        yield text(across.at(value), up.begin + 20, words)
    yield line(across.begin, up.begin, across.end, up.begin, INK)
    yield line(across.begin, up.begin, across.begin, up.end, INK)
    for at, words in enumerate(labels[0].split("\n")):
        yield text((across.begin + across.end) / 2, up.begin + 40 + at * 19, words)
    if labels[1]:
        yield text(across.begin - 54, (up.begin + up.end) / 2, labels[1], turn=-90)


def heading(title: str, under: str = "") -> list[str]:
    below = [text(WIDTH / 2, 49, under, fill=GREY)] if under else []
    return [text(WIDTH / 2, 28, title, 16, weight="bold"), *below]
