"""How many instructions a request takes, and in which part of the program: counted by valgrind's callgrind, by crates
of functions."""
import collections
import glob
import re
import shutil
import subprocess
import sys
import tempfile

VALGRIND = ["valgrind", "--quiet", "--tool=callgrind", "--compress-strings=no", "--compress-pos=no"]

# The kit's crate that reads records, and the crate whose own and lower crates perform requests.
READER, ENGINE = "csv", "auction_run"

# What is no record: a load that ends with it is read to its end, and nothing is performed.
BAD_RECORD = b"?\n"


def is_there() -> bool:
    return shutil.which("valgrind") is not None


def crates_of_engine(root: str) -> set[str]:
    """The engine's crate and all crates below it, the kit's too, but for `core`, which all crates use."""
    with open(f"{root}/crates.txt") as text:
        uses = {name: used.split() for name, used in re.findall(r"(?m)^(\w+): ?(.*)$", text.read())}
    found, left = set(), [ENGINE]
    while left:
        name = left.pop()
        if name not in found:
            found.add(name)
            left += uses.get(name, [])
    return found - {"core"}


def counted(words: list[str], path: str, folder: str) -> collections.Counter[str]:
    """The instructions of a command over a file, by the crates of functions; those of no crate by ''."""
    with tempfile.TemporaryDirectory(dir=folder) as own:
        return by_crates(*files_of_counts(words, path, own))


def files_of_counts(words: list[str], path: str, folder: str, *options: str) -> list[str]:
    """The file that callgrind writes of a command over a file, or those of its threads."""
    with open(path, "rb") as given:
        command = [*VALGRIND, *options, f"--callgrind-out-file={folder}/counts", *words]
        ran = subprocess.run(command, stdin=given, capture_output=True, text=True)
    found = sorted(glob.glob(f"{folder}/counts-*")) or glob.glob(f"{folder}/counts")
    return found or sys.exit(f"{' '.join(words)}: valgrind counts nothing, status {ran.returncode}\n{ran.stderr}")


def by_crates(told: str) -> collections.Counter[str]:
    counts, crate, is_inclusive = collections.Counter(), "", False
    with open(told) as text:
        for line in text:
            if line.startswith("fn="):
                name = line[3:].rstrip("\n")
                crate = name.split("::")[0] if "::" in name else ""
            elif line[0].isdigit():
                # The line after a call has what was counted in the function that was called.
                counts[crate] += 0 if is_inclusive else int(line.split()[1])
            is_inclusive = line.startswith("calls=")
    return counts


def by_threads(words: list[str], path: str, folder: str) -> tuple[int, int]:
    """The instructions of a command over a file, of all threads and of the longest; threads that follow each other may
    have one file, and count as one."""
    with tempfile.TemporaryDirectory(dir=folder) as own:
        counts = [total_of(one) for one in files_of_counts(words, path, own, "--separate-threads=yes")]
    return sum(counts), max(counts)


def total_of(told: str) -> int:
    """The count that a file of callgrind's has for all its functions."""
    with open(told) as text:
        return int(re.search(r"(?m)^(?:summary|totals): (\d+)", text.read()).group(1))


def with_bad_record(path: str, folder: str) -> str:
    cut = f"{folder}/cut.csv"
    with open(path, "rb") as load, open(cut, "wb") as into:
        shutil.copyfileobj(load, into)
        into.write(BAD_RECORD)
    return cut


def by_parts(words: list[str], path: str, engine: set[str], folder: str) -> tuple[int, int, int, int]:
    """Of a command over a load: the instructions of reading, of these the reader's of records, of performing, and all
    others."""
    whole = counted(words, path, folder)
    with tempfile.TemporaryDirectory(dir=folder) as own:
        reading = counted(words, with_bad_record(path, own), own)
    own = sum(whole[crate] - reading[crate] for crate in engine)
    return reading.total(), reading[READER], own, whole.total() - reading.total() - own
