"""The records of a load, for the databases of bench/run."""
import csv
from typing import Any, NamedTuple


class Record(NamedTuple):
    """A row or a request, with the columns of the table `input`; what its kind does not have is None."""

    is_row: bool
    worker: int
    place: int
    kind: str
    who: int | None = None
    other: int | None = None
    item_worker: int | None = None
    item_serial: int | None = None
    number: int | None = None
    amount: int | None = None
    time: int | None = None
    name: str | None = None
    start: int | None = None
    closes: int | None = None


# The requests of a worker.
Script = list[Record]

# Names and values.
Columns = dict[str, Any]


def item_id(field: str) -> Columns:
    worker, serial = field.split(".")
    return {"item_worker": int(worker), "item_serial": int(serial)}


def columns_of(kind: str, f: list[str]) -> Columns:
    """Those of a record's kind, from its fields."""
    if kind == "item":
        number = int(f[8]) if len(f) > 8 else 1
        times = dict(start=int(f[5]), closes=int(f[6]), time=int(f[7]))
        return dict(who=int(f[2]), other=int(f[3]), name=f[4], number=number, **times)
    if kind == "bid":
        return dict(who=int(f[2]), amount=int(f[4]), time=int(f[5]), **item_id(f[3]))
    if kind == "comment":
        return dict(who=int(f[2]), other=int(f[3]), number=int(f[5]), **item_id(f[4]))
    if kind == "buynow":
        return dict(who=int(f[2]), number=int(f[4]), time=int(f[5]), **item_id(f[3]))
    if kind in ("viewitem", "viewbids"):
        return item_id(f[2])
    return dict(who=int(f[2]))


def read_load(path: str, workers: int) -> tuple[list[Record], list[Script]]:
    """The rows and each worker's script."""
    rows: list[Record] = []
    scripts: list[Script] = [[] for _ in range(workers)]
    with open(path, newline="") as text:
        for fields in csv.reader(text):
            worker, kind = int(fields[0]), fields[1]
            is_row, kind = kind.startswith("+"), kind.lstrip("+")
            into = rows if is_row else scripts[worker]
            into.append(Record(is_row, worker, len(into), kind, **columns_of(kind, fields)))
    return rows, scripts
