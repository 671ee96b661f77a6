"""What the referee judges of a front."""

import fcntl
from pathlib import Path
from typing import Iterable


class Audit:
    """What is kept of start N of the program: N.csv has the rows of the log and the requests that were answered,
    N.history their history. A front that ends before all rows are there leaves no history."""

    def __init__(self, folder: Path, number: int, log: Path | None) -> None:
        folder.mkdir(parents=True, exist_ok=True)
        with open(log if log and log.exists() else "/dev/null", "rb") as rows:
            # The program of a front that was killed may still be writing it.
            fcntl.flock(rows, fcntl.LOCK_SH | fcntl.LOCK_NB)
            self.input = open(folder / f"{number}.csv", "xb")
            self.input.writelines(row for row in rows if row.endswith(b"\n"))
        self.input.flush()
        self.history = open(folder / f"{number}.history", "xb")

    def keep(self, lines: Iterable[bytes], requests: Iterable["Request"]) -> None:
        """A front that is killed keeps no reply without its request, since the requests are written first."""
        self.input.write(b"".join(b"%d,%s\n" % (request.client.worker, request.record) for request in requests))
        self.input.flush()
        self.history.write(b"\n".join((*lines, b"")))
        self.history.flush()


def last_number(folder: Path) -> int:
    """The number of the last start that a folder tells of."""
    foreign = [path.name for path in folder.glob("*.csv") if not path.stem.isdecimal()]
    if foreign:
        raise OSError(f"{folder} is no folder of an audit: it has {foreign[0]}")
    return max((int(path.stem) for path in folder.glob("*.csv")), default=0)
