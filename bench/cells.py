"""How bench/run writes figures: numbers with their ranges, tables, and which figures differ."""
import math
from typing import Iterable

from figures import Figure

MILLION = 1e6


def two(value: float | None) -> str:
    """Two digits that count; thousands with commas."""
    if not value:
        return "-" if value is None else "0"
    after = 1 - math.floor(math.log10(float(f"{abs(value):.1e}")))
    return f"{round(value, after):,.{max(0, after)}f}"


def ranged(row: Figure | None, unit: float = 1) -> str:
    """Two digits, with the range of its tries if there were several."""
    if row is None:
        return "-"
    shown, low, high = (two(part / unit) for part in (row.value, row.low, row.high))
    return f"{shown} ({low}–{high})" if low != high else shown


def millions(row: Figure | None) -> str:
    return ranged(row, MILLION)


def count(value: float | None) -> str:
    """A whole number: a count is exact."""
    return "-" if value is None else f"{value:,.0f}"


def in_workers(workers: int) -> str:
    return f"{workers} worker{'s' * (workers > 1)}"


def heads_of(columns: Iterable[tuple[str, int]]) -> list[str]:
    """A head for each name and number of workers: the name is said in its first column."""
    heads, last = [], None
    for name, workers in columns:
        heads.append(in_workers(workers) if name == last else f"{name}, {in_workers(workers)}")
        last = name
    return heads


def table(heads: list[str], rows: list[list[str]]) -> str:
    first, *others = ("| " + " | ".join(line) + " |" for line in (heads, *rows))
    return "\n".join([first, "|" + "---|" * len(heads), *others]) + "\n"


def values(rows: list[Figure], **wanted: str | int) -> list[Figure]:
    return [row for row in rows if all(getattr(row, name) == value for name, value in wanted.items())]


def loads_of(rows: Iterable[Figure]) -> list[str]:
    return list(dict.fromkeys(row.load for row in rows))


def figure(rows: list[Figure], **wanted: str | int) -> Figure | None:
    return next(iter(values(rows, **wanted)), None)


def value(rows: list[Figure], **wanted: str | int) -> float | None:
    found = figure(rows, **wanted)
    return found.value if found else None


def as_shown(value: float) -> float:
    return float(two(value).replace(",", ""))


def are_apart(one: Figure, other: Figure) -> bool:
    """Whether the ranges of two figures, as pages show them, have no value in common: only then do they differ."""
    return as_shown(one.low) > as_shown(other.high) or as_shown(other.low) > as_shown(one.high)


def times(own: Figure | None, one: Figure | None) -> str:
    """A figure as a multiple of another."""
    return two(own.value / one.value) if own and one else "-"


# What a page says where two figures' ranges have a part in common: the tries do not show that the figures differ.
OVERLAP = "ranges overlap"


def times_if_apart(own: Figure | None, one: Figure | None) -> str:
    """A figure as a multiple of another, if their tries show that they differ."""
    return times(own, one) if not own or not one or are_apart(own, one) else "overlap"
