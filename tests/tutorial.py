#!/usr/bin/env python3
"""Shows that the smallest program of docs/TUTORIAL.md runs and prints what is shown there: the page's own
text is made a crate beside the others, in a copy of their sources, and run by `rt try`, as its reader is told
to. Without `rt` it is skipped.

    tests/tutorial.py
"""

import re
import shutil
import subprocess
import tempfile
from pathlib import Path

from lib.program import CRATES, DOCUMENTS, ROOT, Tally

TUTORIAL = DOCUMENTS / "TUTORIAL.md"
SECTION = "## The smallest program\n"
# What the page has of the crate: its line of crates.txt, its file, and what it prints.
LINE = re.compile(r"(?m)^    ((\w+): .*)$")
FILE = re.compile(r"(?ms)^```rust\n(.*?)^```$")
PRINTED = re.compile(r"(?m)^It prints,.*\n\n((?:    .*\n)+)")


def copy_of_sources(folder: Path) -> None:
    """The crates as a clone has them, with nothing built."""
    shutil.copytree(CRATES, folder / "crates", ignore=shutil.ignore_patterns("out", "must-fail", "edits", "proofs"))
    shutil.copy(ROOT / "crates.txt", folder)


def smallest_program(tally: Tally, folder: Path) -> None:
    """the smallest program prints what the page shows"""
    section = TUTORIAL.read_text().partition(SECTION)[2].partition("\n## ")[0]
    line, crate = LINE.search(section).groups()
    with (folder / "crates.txt").open("a") as file:
        file.write(f"{line}\n")
    source = folder / "crates" / crate / "src" / "main.rt"
    source.parent.mkdir(parents=True)
    source.write_text(FILE.search(section)[1])
    printed = re.sub("(?m)^    ", "", PRINTED.search(section)[1])
    got = subprocess.run(
        ["rt", "try"],
        cwd=source.parent.parent,
        stdin=subprocess.DEVNULL,
        capture_output=True,
        text=True,
        errors="replace",
    )
    tally.check((got.returncode, got.stdout) == (0, printed), f"{crate} prints what the page shows: got {got}")


def main() -> None:
    tally = Tally()
    if shutil.which("rt") is None:
        tally.skip(smallest_program.__doc__, "there is no `rt` on the path")
    else:
        with tempfile.TemporaryDirectory() as folder:
            copy_of_sources(Path(folder))
            smallest_program(tally, Path(folder))
    tally.finish()


if __name__ == "__main__":
    main()
