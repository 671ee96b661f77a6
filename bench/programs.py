"""The programs that bench/run measures: found or built, and run once under watch."""
import os
import re
import shutil
import subprocess
import sys
import time
from argparse import ArgumentParser, Namespace
from typing import NamedTuple

HERE = os.path.dirname(os.path.abspath(__file__))
ROOT = os.path.dirname(HERE)

# Scripts take parser_of from here too.
sys.path.append(f"{ROOT}/examples")
from command_line import end, executable, parser_of

# What the options call the crates' programs.
CRATES = {"program": "rubis_auction", "load": "rubis_load", "referee": "rubis_check", "windows": "example_watch"}

# The programs that are not needed where a part is left out.
OF_PARTS = {"referee": "checking", "windows": "windows"}

# What can be left out.
SKIPPED = ("sqlite", "postgres", "redis", "checking", "windows")


BEGUN = time.monotonic()


def say(words: str) -> None:
    """What comes next, after the seconds since the start."""
    print(f"{time.monotonic() - BEGUN:6.1f} s  {words}", file=sys.stderr, flush=True)


def add_program(parser: ArgumentParser) -> None:
    """The options of a script that needs the auction alone."""
    parser.add_argument("--program", metavar="PATH", type=executable, help="rubis_auction, built elsewhere")
    parser.add_argument(
        "--build", action="store_true", help="prove and build rubis_auction by `rt run` if it is not built"
    )


def program_of(asked: Namespace) -> str:
    """The path of the auction, which is proved and built only if that is asked for."""
    crate = CRATES["program"]
    if not asked.program and not asked.build and not os.path.exists(out_path(crate)):
        end(f"{crate} is not built: --build proves and builds it first, as tests/all.sh does")
    return str(asked.program or built_path(crate))


def out_path(crate: str) -> str:
    return f"{ROOT}/crates/{crate}/out/{crate}"


def built_path(crate: str) -> str:
    """The program of a crate, as `rt ci` and `rt run` build it: built first where it is not there."""
    folder, path = f"{ROOT}/crates/{crate}", out_path(crate)
    if not os.path.exists(path):
        if shutil.which("rt") is None:
            end(f"{crate} is not built, and `rt`, which builds it, is not on the path")
        print(f"{crate} is not built: rt run proves and builds it", file=sys.stderr)
        given = open(f"{folder}/stdin") if os.path.exists(f"{folder}/stdin") else subprocess.DEVNULL
        words = open(f"{folder}/args").read().split() if os.path.exists(f"{folder}/args") else []
        status = int(open(f"{folder}/status").read()) if os.path.exists(f"{folder}/status") else 0
        ran = subprocess.run(["rt", "run", "--", *words], cwd=folder, stdin=given, capture_output=True, text=True)
        if ran.returncode != status or not os.path.exists(path):
            sys.exit(f"{crate}: not built\n{ran.stdout}{ran.stderr}")
    return path


RUSTC = ("rustc", "-C", "opt-level=3", "-C", "codegen-units=1", "--edition", "2021")

# What is compiled for each run, and by which words, if the first of them is there.
COMPILED = {"plain": (*RUSTC, f"{HERE}/plain/main.rs", "-o"), "one_pass": ("cc", "-O3", f"{HERE}/one_pass.c", "-o")}


class Use(NamedTuple):
    """What a whole command took: time by the clock, memory at most, time of processors for it and for the system's
    part, page faults."""

    seconds: float
    megabytes: float
    user: float
    system: float
    faults: int


def all_paths(asked: Namespace, folder: str) -> dict[str, str]:
    """Each program's path. Plain Rust and C are left out if there is no compiler."""
    wanted = [name for name in CRATES if OF_PARTS.get(name) not in asked.skip]
    built = {name: os.path.abspath(getattr(asked, name) or built_path(CRATES[name])) for name in wanted}
    for name, words in COMPILED.items():
        if shutil.which(words[0]):
            built[name] = f"{folder}/{name}"
            subprocess.check_call([*words, built[name]])
    return built


def watched(what: str, path: str, words: list[str], status: int = 0) -> list[int]:
    """What watched.py tells of a command over a file, which is to end with this status."""
    ran = subprocess.run(
        [sys.executable, "-S", "-E", f"{HERE}/watched.py", what, path, *words], capture_output=True, text=True
    )
    if ran.returncode != status:
        said = ran.stderr.strip().splitlines() or [f"status {ran.returncode}"]
        end(f"{' '.join(words)}: {said[-1]}")
    return [int(number) for number in ran.stdout.split()]


def whole_of(words: list[str], path: str, status: int = 0) -> Use:
    nanoseconds, kilobytes, user, system, faults = watched("whole", path, words, status)
    return Use(nanoseconds / 1e9, kilobytes * 1024 / 1e6, user / 1e6, system / 1e6, faults)


def executing_of(words: list[str], path: str) -> float:
    """The seconds from the last bytes of the input to the end of the command."""
    return watched("executing", path, words)[0] / 1e9


def peak_memory(process: int) -> float:
    """The most megabytes that a process has had."""
    with open(f"/proc/{process}/status") as status:
        return int(re.search(r"VmHWM:\s+(\d+)", status.read())[1]) * 1024 / 1e6


def in_seconds(text: str) -> float:
    """A duration as it is printed: `1.5s`, `20ms`, `3µs`."""
    number, unit = re.fullmatch(r"([0-9.]+)(s|ms|µs|ns)", text).groups()
    return float(number) * {"s": 1, "ms": 1e-3, "µs": 1e-6, "ns": 1e-9}[unit]


def write_output(words: list[str], path: str, to: str) -> None:
    """What a command over a file writes, in another file."""
    with open(path, "rb") as given, open(to, "wb") as written:
        subprocess.run(words, stdin=given, stdout=written, check=True)


def output_of(words: list[str], path: str) -> str:
    with open(path, "rb") as given:
        return subprocess.run(words, stdin=given, capture_output=True, check=True).stdout.decode()
