#!/usr/bin/env python3
"""Shows that the tools do as they say: bench/tune, whose command has to run, bench/starts, bench/beside_redis, the help
of example_watch, likes, man pages, bench/applications, the sentences of bench/claims.py, what tests/all.sh says if
`rt ci` fails, and what each script says of wrong words, of what is not there, and of an interruption.

    tests/tools.py [PROGRAM]
"""

import os
import re
import shutil
import signal
import sys
import time
from concurrent.futures import ThreadPoolExecutor
from contextlib import suppress
from pathlib import Path
from subprocess import PIPE, Popen, TimeoutExpired
from tempfile import TemporaryDirectory
from typing import BinaryIO

from lib import helps
from lib.model import Outcome
from lib.program import (
    BENCH,
    BUILT,
    DOCUMENTS,
    EXAMPLES,
    SECONDS,
    TESTS,
    Tally,
    built,
    described,
    executable,
    is_asleep,
    parser_of,
    run,
)

PYTHON = [sys.executable, "-B"]
RUN, TUNE, STARTS, BESIDE, APPLICATIONS = (
    BENCH / name for name in ("run", "tune", "starts", "beside_redis", "applications")
)
THREE, MAN_PAGES = EXAMPLES / "sql" / "three.sh", DOCUMENTS / "man_pages.py"
API, HISTORY = DOCUMENTS / "api.py", DOCUMENTS / "pictures" / "history.py"
SKEWED = EXAMPLES / "skewed.csv"
NEEDED = ["--workers", "4", "--users", "6", "--categories", "3"]

# What is not there, as a file, as a folder and as a program.
NONE = str(TESTS / "none")
# Scripts that take a program first, and those that take words.
OF_A_PROGRAM = [
    TESTS / f"{name}.py"
    for name in (
        "checking ends failover joined lasting library_calls limits live logs postgres quorum"
        " refused_memory second_opinion serving timeline tools worked"
    ).split()
]
OF_EXAMPLES = [
    EXAMPLES / f"{name}.py"
    for name in ("client", "front", "front_quorum", "load", "small_engine", "timeline", "sql/load", "sql/perform")
]
OF_WORDS = [
    *OF_A_PROGRAM,
    TESTS / "compare_programs.py",
    TESTS / "loads.py",
    *OF_EXAMPLES,
    TESTS / "edits.py",
    TESTS / "unproved.py",
    MAN_PAGES,
    API,
    HISTORY,
    RUN,
    TUNE,
    STARTS,
    BESIDE,
    APPLICATIONS,
]
CLIENT, FRONT, QUORUM, LOAD, SMALL_ENGINE, TIMELINE, _, PERFORM = OF_EXAMPLES

# Stands for the program under test.
PROGRAM = "PROGRAM"
# Words of a script, its status, and what its line names.
ANSWERS = [
    *(([script, "--none"], 2, "") for script in OF_WORDS),
    *(([script, NONE], 2, NONE) for script in OF_A_PROGRAM),
    *(([script, "--program", NONE], 2, NONE) for script in (RUN, STARTS, TUNE, BESIDE)),
    ([TESTS / "compare_programs.py", PROGRAM, NONE], 2, NONE),
    ([TESTS / "loads.py", "--generator", NONE], 2, NONE),
    *(([TESTS / "all.sh", *words], 2, "--unproved") for words in (["--none"], ["--built", NONE], ["--since"])),
    ([TESTS / "all.sh", "--since", NONE], 2, NONE),
    ([CLIENT, NONE], 1, NONE),
    ([CLIENT, PROGRAM, "--none"], 1, "'--none'"),
    ([CLIENT, "/bin/false"], 1, "/bin/false ended with status 1"),
    ([FRONT, "--port", "0", NONE], 2, NONE),
    ([FRONT, "--port", "65536", PROGRAM], 1, "0-65535"),
    ([QUORUM, "--log", NONE, NONE], 2, NONE),
    ([QUORUM, "--log", NONE, "--etcd", "one:two", PROGRAM], 2, "one:two"),
    ([QUORUM, PROGRAM], 2, "--log"),
    ([LOAD, NONE], 1, NONE),
    ([LOAD, PROGRAM], 1, "UTF-8"),
    ([LOAD, TESTS / "README.md"], 1, "# Tests"),
    ([LOAD, "/dev/null"], 1, "no requests"),
    ([LOAD, "--port", "1"], 1, "127.0.0.1:1: Connection refused"),
    ([LOAD, "--port", "99999"], 1, "0-65535"),
    ([LOAD, "--pipeline", "0"], 2, "--pipeline"),
    ([SMALL_ENGINE, NONE, "1"], 1, NONE),
    ([SMALL_ENGINE, TESTS, "1"], 1, "Is a directory"),
    ([SMALL_ENGINE, TESTS / "README.md", "1"], 1, "line 1"),
    ([TIMELINE, NONE], 1, NONE),
    *([([PERFORM, "--database", "host=/none"], 1, "/none")] if shutil.which("psql") else []),
    ([MAN_PAGES, NONE, PROGRAM], 1, NONE),
    ([MAN_PAGES, TESTS, NONE], 2, NONE),
    ([API, TESTS / "README.md"], 1, "README.md"),
    ([RUN, "--only", "none"], 2, "none is none of workers"),
    ([RUN, "--skip", "none"], 2, "none is none of sqlite"),
    ([APPLICATIONS, "--bank", NONE], 2, NONE),
    ([APPLICATIONS, "--tries", "0"], 2, "--tries"),
    ([APPLICATIONS, "--draw", "--out", NONE], 1, NONE),
    ([STARTS, "--rows", "9"], 2, "10000"),
    ([STARTS, "--tries", "0"], 2, "--tries"),
    ([BESIDE, "--turns", "0"], 2, "--turns"),
    ([STARTS, "--program", "/bin/false", "--rows", "10000"], 1, "no reply"),
    ([TUNE, NONE], 1, NONE),
    ([TUNE, TESTS], 1, "Is a directory"),
    ([TUNE, TESTS / "README.md"], 1, "no record"),
    ([TUNE, "--program", "/bin/false", "/dev/null"], 1, "no record"),
    ([TUNE, "--program", PROGRAM, SKEWED, "--", "--workers", "x"], 1, "'--workers <N>'"),
    ([TUNE, "--program", PROGRAM, SKEWED, "--", "--workers", "1"], 1, "record 2"),
    ([TUNE, SKEWED, "--", *NEEDED, "--split=8"], 2, "--split=8"),
    ([TUNE, SKEWED, "--", "--fast"], 2, "--fast"),
    ([TUNE, "--tries", "0", SKEWED], 2, "--tries"),
    ([THREE, "kill", NONE], 1, NONE),
    ([THREE, "none", NONE], 1, "FOLDER"),
]
# What makes a program where `rt run` would, and tells that it was called.
BUILDS = """#!/bin/sh
echo "$*" > "{folder}/called"
/bin/mkdir -p out
/bin/cp {program} out/rubis_auction
"""


def tuned(tally: Tally, program: Path) -> None:
    """commands that bench/tune prints"""
    wanted = len(run([program, *NEEDED], SKEWED.read_bytes()).stdout.splitlines())
    got = run([TUNE, "--tries", "2", "--program", program, SKEWED, "--", *NEEDED])
    lines = got.stdout.decode().splitlines()
    tally.check(
        got.status == 0 and len(lines) == 15 and lines[0].startswith("seconds") and not lines[-2],
        f"bench/tune: {described(got)}",
    )
    tally.check(
        len({line.split("  ")[-1] for line in lines[1:-2]}) == 12, f"bench/tune: other settings than 12: {lines}"
    )
    used = run(["sh", "-c", lines[-1] if lines else "false"])
    tally.check(used.status == 0 and len(used.stdout.splitlines()) == wanted, f"{lines[-1:]}: {described(used)}")
    got = run([TUNE, "--tries", "1", "--program", "/bin/true", SKEWED])
    first, *told = got.stderr.decode().splitlines()
    is_told = (
        got.status == 1
        and first == "try 1 of 1"
        and len(told) == 1
        and told[0].startswith("tune: ")
        and "does not read all" in told[0]
    )
    tally.check(is_told, f"bench/tune over what reads nothing: {described(got)}")


# A program of which one setting takes long once, and is the fastest by its median; all others take longer than that.
SPREAD = """\
#!/bin/sh
cat > /dev/null
case "$*" in
*"--fast --hot=0")
    echo >> "{folder}/calls"
    [ "$(wc -l < "{folder}/calls")" = 3 ] && sleep 0.6 || sleep 0.05 ;;
*) sleep 0.2 ;;
esac
"""


def spread(tally: Tally, _: Path) -> None:
    """bench/tune over tries whose ranges overlap: the command of the lowest median, and marks at the others"""
    with TemporaryDirectory() as name:
        slow = Path(name) / "slow"
        slow.write_text(SPREAD.format(folder=name))
        slow.chmod(0o755)
        got = run([TUNE, "--tries", "3", "--program", slow, SKEWED])
    lines = got.stdout.decode().splitlines()
    tally.check(
        got.status == 0
        and lines[-1].endswith(f"slow --fast --hot=0 < {SKEWED}")
        and [line[0] for line in lines[1:-2]].count("=") == 11,
        f"bench/tune over tries that overlap: {described(got)}",
    )


def starts(tally: Tally, program: Path) -> None:
    """tries of bench/starts"""
    got = run([STARTS, "--program", program, "--rows", "20000", "--tries", "2"])
    lines = [re.fullmatch(rb"20000 rows, 1 MB: [0-9.]+ s, [0-9.]+ MB", line) for line in got.stdout.splitlines()]
    tally.check(got.status == 0 and len(lines) == 2 and all(lines), f"bench/starts: {described(got)}")


def beside_redis(tally: Tally, program: Path) -> None:
    """a turn of bench/beside_redis, and what it says without Redis"""
    got = run([*PYTHON, BESIDE], env=os.environ | {"PATH": NONE})
    told = b"beside_redis: redis-server is not installed; Debian has it in redis-server\n"
    tally.same("bench/beside_redis without Redis", got, Outcome(1, b"", told))
    if not (shutil.which("redis-server") and shutil.which("redis-benchmark")):
        return tally.skip("a turn of bench/beside_redis", "Redis is not installed")
    got = run([BESIDE, "--fast", "--turns", "1", "--program", program])
    row = r"(?m)^\| (?:front|Redis), (?:no log|log synced)(?: \| \d+(?:\.\d)? / \d+(?:\.\d)?){3} \|$"
    rows = re.findall(row, got.stdout.decode())
    tally.check(got.status == 0 and len(rows) == 4, f"bench/beside_redis: {described(got)}")


def windows(tally: Tally, program: Path) -> None:
    """help of example_watch, words that it refuses, and what it measures: views stop with the run"""
    watch = built("example_watch")
    helps.help_and_version(tally, watch, "example_watch", False)
    for words in (["x"], ["watch", "x"], [""], ["--measure"]):
        got = run([watch, *words])
        is_named = got.status == 1 and not got.stdout and f"'{words[0]}'" in got.stderr.decode()
        tally.check(is_named, f"example_watch {words}: {described(got)}")
    for count, thousands, bids, views in (
        (0, 5, 300, "0 views"),
        (3, 2, 0, "6000 views in"),
        (2, 0, 300, "0 views in"),
        (1, 1_000_000, 300, r"\d+ views in"),
    ):
        got = run([watch, f"--windows={count}", f"--views={thousands}", f"--bids={bids}"])
        right = re.match(rf"run [0-9.]+(s|ms|µs|ns), {views}", got.stdout.decode())
        tally.check(got.status == 0 and bool(right), f"{count} windows, {bids} bids: {described(got)}")


def answers(tally: Tally, program: Path) -> None:
    """wrong words, and files and programs that are not there: a line each"""
    with ThreadPoolExecutor(4) as threads:
        outcomes = threads.map(run, (command(words, program) for words, *_ in ANSWERS))
        for ((script, *words), status, named), got in zip(ANSWERS, outcomes):
            is_told = (
                got.status == status and not got.stdout and is_line(got.stderr, script) and named.encode() in got.stderr
            )
            tally.check(is_told, f"{script.name} {words}, of {named}: {described(got)}")
    got = run([*PYTHON, PERFORM], env=os.environ | {"PATH": NONE})
    tally.same(
        "perform.py without psql",
        got,
        Outcome(1, b"", b"perform.py: psql is not installed; Debian has it in postgresql-client\n"),
    )


def command(words: list, program: Path) -> list:
    return [*(PYTHON if words[0].suffix == ".py" else []), *(program if word == PROGRAM else word for word in words)]


def is_line(told: bytes, script: Path) -> bool:
    return told.startswith(script.stem.encode()) and told.count(b"\n") == 1 and told.endswith(b"\n")


def interruptions(tally: Tally, _: Path) -> None:
    """interruptions: a line"""
    with TemporaryDirectory() as folder:
        pipe = f"{folder}/pipe"
        os.mkfifo(pipe)
        for script, *words in ([TIMELINE, pipe], [SMALL_ENGINE, pipe, "1"], [LOAD, pipe]):
            # A shell may have told its children to ignore interruptions.
            with Popen(
                [*PYTHON, script, *words],
                stdout=PIPE,
                stderr=PIPE,
                preexec_fn=lambda: signal.signal(signal.SIGINT, signal.SIG_DFL),
            ) as process:
                with writer(pipe, process):
                    wait_asleep(process)
                    process.send_signal(signal.SIGINT)
                    stdout, stderr = told_by(process)
            wanted = Outcome(-signal.SIGINT, b"", f"{script.name}: interrupted\n".encode())
            tally.same(f"{script.name}, interrupted", Outcome(process.returncode, stdout, stderr), wanted)


def told_by(process: Popen) -> tuple[bytes, bytes]:
    """The output and the errors of a process, which is killed if it hangs."""
    try:
        return process.communicate(timeout=SECONDS)
    except TimeoutExpired:
        process.kill()
        return process.communicate()


def writer(pipe: str, process: Popen) -> BinaryIO:
    """A pipe's end for writing, once a process reads it; if it has ended, nobody does."""
    while process.poll() is None:
        with suppress(OSError):
            return os.fdopen(os.open(pipe, os.O_WRONLY | os.O_NONBLOCK), "wb")
        time.sleep(0.01)
    return open(os.devnull, "wb")


def wait_asleep(process: Popen) -> None:
    """Waits until a process sleeps, as it does once it reads an empty pipe: Python sees a signal late that comes
    between its last look and the call."""
    until = time.monotonic() + SECONDS
    while process.poll() is None and not is_asleep(process.pid) and time.monotonic() < until:
        time.sleep(0.01)


def builds(tally: Tally, program: Path) -> None:
    """what bench/tune and bench/starts build: nothing, unless --build asks for it, after a look at the input"""
    with TemporaryDirectory() as name:
        folder = Path(name)
        shutil.copytree(BENCH, folder / "bench", ignore=shutil.ignore_patterns("out"))
        shutil.copytree(EXAMPLES, folder / "examples")
        (folder / "crates" / "rubis_auction").mkdir(parents=True)
        rt, called = folder / "rt", folder / "called"
        rt.write_text(BUILDS.format(folder=folder, program=program))
        rt.chmod(0o755)
        tune, few_starts = [folder / "bench" / "tune", "--tries", "1"], [folder / "bench" / "starts", "--rows", "10000"]
        env = os.environ | {"PATH": name}
        for words in ([*tune, SKEWED, "--", *NEEDED], few_starts, [*tune, "--build", NONE]):
            got = run([*PYTHON, *words], env=env)
            tally.check(
                got.status == 1 and is_line(got.stderr, words[0]) and not called.exists(),
                f"{words}, not built: {described(got)}",
            )
        got = run([*PYTHON, *tune, "--build", SKEWED, "--", *NEEDED], env=env)
        tally.check(
            got.status == 0 and called.exists() and called.read_text().startswith("run "),
            f"bench/tune --build: {described(got)}",
        )


# Runs no script of tests, which would come here again.
PYTHON3 = """#!/bin/sh
[ "$2" = -c ] && exec {python} "$@"
"""
# Stands for a kit of this folder, whose `rt ci` says this and then ends so.
KIT = """#!{python}
import os, sys
processors = free = lambda: 1
if __name__ == "__main__":
    print({said!r} if sys.argv[1] == "ci" else "{folder}/page", flush=True)
    sys.argv[1] == "ci" and {ends}
"""


def gates(tally: Tally, _: Path) -> None:
    """tests/all.sh without `rt`, and with one whose `rt ci` fails or is killed"""
    with TemporaryDirectory(prefix="a folder ") as name:
        folder = Path(name)
        (folder / "bin").mkdir()
        for program in ("bash", "dirname"):
            (folder / "bin" / program).symlink_to(shutil.which(program))
        got = run([TESTS / "all.sh"], env=os.environ | {"PATH": f"{name}/bin"})
        tally.same("all.sh without rt", got, Outcome(2, b"", b"all.sh: there is no `rt` on the path\n"))
        (folder / "bin" / "python3").write_text(PYTHON3.format(python=sys.executable))
        rt, env = folder / "bin" / "rt", {"PATH": f"{name}/bin:{os.environ['PATH']}", "TMPDIR": name}
        for said, ends, count in (
            ("4 passed, 2 failed", "sys.exit(1)", "4 passed, 3 failed"),
            ("rt: one proved", "os.kill(os.getpid(), 9)", "0 passed, 2 failed"),
        ):
            rt.write_text(KIT.format(python=sys.executable, said=said, folder=folder, ends=ends))
            for program in (rt, rt.with_name("python3")):
                program.chmod(0o755)
            got = run([TESTS / "all.sh"], env=os.environ | env)
            lines = got.stdout.decode().splitlines()[1:]
            wanted = [said, "FAILED scripts: none is run, since `rt ci` failed", count]
            tally.check((got.status, lines) == (1, wanted), f"all.sh, `rt ci` {ends}: {described(got)}")
        tally.check([*folder.iterdir()] == [folder / "bin"], "all.sh leaves a temporary file")


def man_pages(tally: Tally, program: Path) -> None:
    """man pages: each has what help says, and no warning of groff"""
    programs = {"rubis_auction": program, "rubis_check": built("rubis_check"), "rubis_load": built("rubis_load")}
    if shutil.which("groff") is None:
        return tally.skip("man pages", "groff is not installed")
    with TemporaryDirectory() as folder:
        got = run([*PYTHON, MAN_PAGES, folder, *programs.values()])
        tally.same("docs/man_pages.py", got, Outcome(0, b"", b""))
        for name, path in programs.items():
            got = run(["groff", "-man", "-Tascii", "-ww", "-P-cbou", f"{folder}/{name}.1"])
            tally.check(got.status == 0 and not got.stderr, f"{name}.1: {got.stderr!r}")
            shown = " ".join(got.stdout.decode().split())
            for line in lines_of_help(run([path, "--help"]).stderr.decode()):
                tally.check(line in shown, f"{name}.1 has {line!r}")
            for title in (
                "NAME",
                "SYNOPSIS",
                "DESCRIPTION",
                "OPTIONS",
                "EXIT STATUS 0 ",
                "EXAMPLES",
                "SEE ALSO rubis_",
            ):
                tally.check(f" {title}" in shown, f"{name}.1 has {title}")


def lines_of_help(said: str) -> list[str]:
    """Lines of help without titles and statuses, and with single spaces."""
    words = re.sub(r"(?s)Status: .*?\.\n|\n\w+:\n|Usage: ", "\n", said)
    return [" ".join(line.split()) for line in words.splitlines() if line]


# Inputs of example_likes of 4,000 requests, and what they leave by any number of workers and any policy: the likes of
# each page times its number.
LIKES = (
    ("like,{user},1000,{at}", "--threshold=0", 4_000_000),
    ("view,{user},1000", "--threshold=0", 0),
    ("like,0,1000,{at}", "--threshold=8", 4_000_000),
)


def loads_of_applications(tally: Tally, _program: Path) -> None:
    """likes, the help of their program, and lines that are none"""
    program = built("example_likes")
    helps.help_and_version(tally, program, "example_likes", False)
    for line, word, sum_left in LIKES:
        for workers in (1, 4):
            lines = (f"{at % workers},{line.format(user=at % 1000, at=at)}\n" for at in range(4000))
            got = run([program, "--time", word], "".join(lines).encode())
            right = re.fullmatch(rf"4000 requests: [0-9.]+(s|ms|µs|ns), sum {sum_left}\n", got.stdout.decode())
            tally.check(got.status == 0 and bool(right), f"{line} {word}, {workers} workers: {described(got)}")
    for line in ("0,like,0,1", "0,view,0,x", "0,share,0,1", "64,view,0,1", "", "0,view,0,2000"):
        got = run([program], f"0,view,0,1\n{line}\n".encode())
        is_told = got.status == 1 and not got.stdout and is_line(got.stderr, Path("example_likes"))
        tally.check(is_told, f"{line}: {described(got)}")


def figures_of_applications(tally: Tally, _program: Path) -> None:
    """figures, plot and page of bench/applications, also drawn again; and a program that prints none"""
    if shutil.which("rustc") is None:
        return tally.skip("bench/applications", "rustc is not installed")
    words = [*PYTHON, APPLICATIONS, "--program"]
    with TemporaryDirectory() as folder:
        written = [
            Path(folder) / "docs" / name
            for name in ("APPLICATIONS.md", "performance/applications.csv", "performance/applications.svg")
        ]
        got = run([*words, built("example_likes"), "--requests", "4000", "--tries", "2", "--out", folder])
        tally.check(got.status == 0 and all(path.exists() for path in written), f"bench/applications: {described(got)}")
        first = [path.read_bytes() for path in written]
        # Two lines of heads, and of each of four loads three systems by four counts of workers, and one without locks.
        tally.check(first[1].count(b"\n") == 2 + 4 * (3 * 4 + 1), f"lines of applications.csv: {first[1]!r}")
        got = run([*PYTHON, APPLICATIONS, "--draw", "--out", folder])
        tally.same("bench/applications --draw", got, Outcome(0, b"", b""))
        tally.check([path.read_bytes() for path in written] == first, "bench/applications --draw writes the same")
    got = run([*words, "/bin/true", "--requests", "4000", "--tries", "1", "--fast"])
    tally.check(
        got.status == 1 and b"/bin/true --time" in got.stderr.splitlines()[-1],
        f"bench/applications of no likes: {described(got)}",
    )


# Figures of a page, made up: of each load, system and number of workers the median rate and its range. What
# claims.py makes of them follows.
MADE_UP = {
    ("bids on one item", "Fundreivo", 4): (10, 9, 11),
    ("bids on one item", "Fundreivo", 1): (8, 7, 9.2),
    ("bids on one item", "Fundreivo, without splitting", 4): (5, 4, 6),
    ("bids on one item", "plain Rust, no lock", 4): (14, 6, 18),
    ("bids on one item", "plain Rust, no lock", 2): (13, 12, 14),
    ("bidding mix", "Fundreivo", 4): (2, 1.5, 2.5),
    ("bidding mix", "plain Rust, no lock", 4): (5, 4, 6),
    ("bidding mix", "Fundreivo", 1): (1, 0.9, 1.1),
    ("bidding mix", "Fundreivo, without splitting", 4): (2, 1, 3),
    ("bids on one item", "C, in one pass", 1): (20, 19, 21),
}
CLAIMS = """
import claims
from figures import WHOLE_RATE, Figure
rows = [Figure("workers", load, system, workers, 0, 64, 4096, 8, 8, 4 * workers, 480000, WHOLE_RATE,
               *(1e6 * part for part in rates))
        for (load, system, workers), rates in {}.items()]
print(claims.cost(rows), claims.gain(rows), claims.level(rows), claims.beside(rows).splitlines()[5], sep="\\n")
"""
CLAIMED = """\
With 4 workers, whole commands reach 0.50 (bids on one item) and 0.40 (the bidding mix) \
of the throughput of the fastest plain Rust or C
With `--fast` and 4 workers, splitting makes whole commands 2.0 times as fast on bids on one item; \
on the bidding mix no difference is shown
The fastest plain Rust is 2.5 times as fast on the bidding mix; on bids on one item no difference is shown
| Millions of bids/s, from a file | 10 (9.0–11) | 14 (6.0–18), a tie | - | - |
"""


def claims_of_figures(tally: Tally, _program: Path) -> None:
    """what README.md says of made-up figures: the fastest by its value, and where ranges overlap"""
    got = run([*PYTHON, "-c", CLAIMS.format(MADE_UP)], env=os.environ | {"PYTHONPATH": str(BENCH)})
    tally.same("bench/claims.py", got, Outcome(0, CLAIMED.encode(), b""))


def main() -> None:
    parser = parser_of(__doc__)
    parser.add_argument("program", type=executable, nargs="?", default=str(BUILT))
    program = parser.parse_args().program
    tally = Tally()
    of_programs = (tuned, spread, starts, beside_redis, windows, loads_of_applications, man_pages)
    others = (figures_of_applications, claims_of_figures, answers, gates, interruptions, builds)
    for check in (*of_programs, *others):
        tally.tell(check, tally, program)
    tally.finish()


if __name__ == "__main__":
    sys.exit(main())
