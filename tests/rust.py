#!/usr/bin/env python3
"""Shows that the crates as ordinary Rust are the same program: what rust/build writes and builds passes the tests of
the sources, and writes the same bytes.

    tests/rust.py [NATIVE] [--inputs 300] [--seed N]

NATIVE is a build of the Rattle sources to compare with, or else that of `rt ci`; if there is none, the program is held
against the model of tests/lib alone. Without what docs/RUST.md says, only what rust/export.py writes is looked at.
"""

import itertools
import os
import random
import re
import shutil
import subprocess
import sys
import tempfile
from argparse import Namespace
from pathlib import Path

from lib.model import Outcome
from lib.program import BUILT, CRATES, DOCUMENTS, EXAMPLES, ROOT, TESTS, Tally
from lib.program import build_shim, built, described, executable, parser_of, run
from lib.refusing import Refusing
from lib.sessions import FIRST, requests
from refused_memory import cases

RUST = ROOT / "rust"
OUT = RUST / "out"
BUILT_BY_CARGO = OUT / "target/release/rubis_auction"
# Texts that are no Rust and that the exporter does not know, each with what it says.
STRANGE = {
    "fn f() {\n    union();\n}\n": "2: `union` cannot be exported here",
    "fn f() {}\n\n#[strange]\nfn g() {}\n": "3: the attribute `strange` is not known",
    "fn f() {\n    let a = ask!(b);\n}\n": "2: `ask!` is not known",
    "fn f(a: u8) -> bool {\n    a ≡ 3\n}\n": "2: `≡` is no mark of Rust",
    "fn f()\n    ensures five six { true }\n{\n}\n": "2: `ensures` cannot be exported here",
    "struct A {\n    b: B,\n}\n\nimpl Drop for A {\n    fn drop(self) {\n        self.b.close();\n    }\n}\n":
        "5: a drop that does more than to let fields go",
    "fn f() {}\nghost a: { b }\n": "2: a ghost item that does not end",
}
WORDS = (
    "--help -h --version -V --workers --workers=3 3 0 17 --rows --rows=1 --history --hist --reprt --report --log x --"
    " - -q --joined 5 --split= --split=x --threshold=4294967296 --live --help=1 -hV --wrkers --fast --hot -1 --users=9"
).split()
LOADS = (
    "--requests 3000 --workers 4 --items 50 --skew 100",
    "--requests 3000 --workers 4 --views 0 --comments 30 --purchases 20 --new-items 50 --seed 7",
    "--requests 1000 --workers 16 --items 1 --skew 200 --users 3 --categories 1",
)
# The cases of refused_memory.py of which each allocation is refused here too.
FEW_CASES = 6


def built_by(*words: str, **env: str) -> subprocess.CompletedProcess[str]:
    """What rust/build says, of a workspace that is written."""
    env = os.environ | {"AS_IS": "1"} | env
    return subprocess.run([RUST / "build", *words], capture_output=True, text=True, env=env)


def reason_to_skip() -> str | None:
    """Why nothing can be built here: a line of rust/build."""
    got = built_by("metadata", "--no-deps", "--format-version", "1")
    is_told = got.returncode and got.stderr.startswith("rust/build: ")
    return got.stderr.strip() if is_told else None


def says_what_to_install(tally: Tally) -> None:
    """machines without cargo, with an old one, or without crates of others: a line says what to install"""
    told = re.search(r"(?m)^    (apt-get install (?:librust-[a-z-]+-dev ?)+)$", (DOCUMENTS / "RUST.md").read_text())
    rust = "install Rust 1.89 or later, by https://rustup.rs"
    missing = "crates of others are missing, and crates.io is not reached"
    with tempfile.TemporaryDirectory() as folder:
        cargo = Path(folder, "cargo")
        for script, said in (
            ("exit 1", f"there is no cargo: {rust}"),
            ("echo cargo 1.85.1 x", f"cargo 1.85.1 is too old: {rust}"),
            ('[ "$1" = --version ] && echo cargo 1.99.0 x', f"{missing}: `{told and told[1]}`"),
        ):
            cargo.write_text(f"#!/bin/sh\n{script}\n")
            cargo.chmod(0o755)
            got = built_by("test", PATH=f"{folder}:{os.environ['PATH']}")
            tally.check((got.returncode, got.stderr) == (1, f"rust/build: {said}\n"), f"`{script}` as cargo: {got}")


def refuses(tally: Tally) -> None:
    """sources that cannot be exported, refused with file and line"""
    sys.path.insert(0, str(RUST))
    from export import Source

    with tempfile.TemporaryDirectory(dir=OUT) as folder:
        for text, wanted in STRANGE.items():
            path = Path(folder) / "strange.rt"
            path.write_text(text)
            try:
                said = f"no error, but {Source(path).as_rust(False)!r}"
            except SystemExit as refused:
                said = str(refused)
            tally.check(said.endswith(f"strange.rt:{wanted}"), f"{text!r}: wanted {wanted!r}; got {said!r}")


def exports(tally: Tally) -> None:
    """exported crates: none has `unsafe`, and public contracts stand in their docs"""
    crates = {path: path.read_text() for path in (OUT / "crates").rglob("*.rs")}
    tally.check(len(crates) == len(list(CRATES.glob("*/src/**/*.rt"))), "a file for each of the sources")
    for path, text in crates.items():
        tally.check(not re.search(r"(?m)^(?!\s*//).*\bunsafe\b", text), f"{path}: `unsafe`")
    for path in CRATES.glob("*/src/**/*.rt"):
        # The clauses of functions that begin a line by `pub fn`, each by the first word that it has of its own.
        wanted = re.findall(r"(?m)^ *pub fn [^{;]*?\n *((?:requires|ensures)\b[^{]*\{)", path.read_text())
        text = crates[OUT / "crates" / path.relative_to(CRATES).with_suffix(".rs")]
        tally.check(all(f"/// {clause}" in text for clause in wanted), f"{path}: a contract that is not in the docs")


def source_line(path: str, number: int) -> str:
    """The file and line of the source from which a line of the workspace is."""
    if not path.startswith("crates/"):
        return f"rust/{path.replace('/src/lib.rs', '.rs') if path.startswith('shims/') else path}:{number}"
    source = Path(path).with_suffix(".rt")
    there, here = ([line.strip() for line in file.read_text().splitlines()] for file in (OUT / path, ROOT / source))
    before = there[:number].count(there[number - 1])
    same = [at for at, line in enumerate(here, 1) if line == there[number - 1]]
    return f"{source}:{same[before - 1]}" if before <= len(same) else f"{source}, as rust/out/{path}:{number}"


def faults_of(said: str) -> list[str]:
    """The faults that rustc found, each with the file and line of the source."""
    found = re.findall(r"(?m)^error(?:\[E\d+\])?: (.*)\n +--> ([^:]+):(\d+)", said)
    return [f"{source_line(path, int(number))}: {why}" for why, path, number in found]


def builds(tally: Tally, *words: str) -> str:
    got = built_by(*words)
    said = got.stdout + got.stderr
    lines = "\n".join(faults_of(said)) or said[-3000:]
    tally.check(got.returncode == 0, f"rust/build {' '.join(words)}: {lines}")
    return said


def renamed(tally: Tally, crate: str, folder: str, name: str, users: Path) -> None:
    """A name of the workspace is another; a crate that uses it is then refused, with each line that does."""
    for path in (OUT / folder).rglob("*.rs"):
        path.write_text(path.read_text().replace(name, f"{name}_2"))
    faults = faults_of(built_by("build", "-p", crate).stderr)
    wanted = {
        f"{path.relative_to(ROOT)}:{number}"
        for path in users.rglob("*.r[st]")
        for number, line in enumerate(path.read_text().splitlines(), 1)
        if re.search(rf"\.{name}\(|pub use .*\b{name}\b", line)
    }
    tally.check({fault.split(": ")[0] for fault in faults} == wanted, f"no {name}: {faults}, and not {wanted}")


def changes(tally: Tally) -> None:
    """a call that the workspace lacks, and a name that the facade does not find, told with file and line"""
    renamed(tally, "rubis_load", "shims/rand", "random_range", CRATES / "rubis_load/src")
    renamed(tally, "fundreivo", "crates/application_check", "HistoryFault", RUST / "fundreivo/src")
    export(tally)


def export(tally: Tally) -> None:
    """what rust/export.py writes"""
    got = subprocess.run([sys.executable, "-B", RUST / "export.py"], capture_output=True, text=True)
    tally.check(got.returncode == 0, f"rust/export.py: {got.stderr}")
    if got.returncode:
        tally.finish()


def tests(tally: Tally) -> None:
    """the tests of the sources, run by cargo"""
    said = builds(tally, "test")
    passed, failed = (sum(map(int, re.findall(rf"(\d+) {word}", said))) for word in ("passed", "failed"))
    wanted = sum(path.read_text().count("#[test]") for path in CRATES.glob("*/src/**/*.rt"))
    tally.check(passed >= wanted and not failed, f"{wanted} tests: {passed} passed, {failed} failed")
    tally.passed += passed


def script(tally: Tally, name: str, *words: object) -> None:
    """Runs a script of tests on the program, and adds what it counts."""
    got = subprocess.run([sys.executable, "-B", TESTS / name, *map(str, words)], capture_output=True, text=True)
    counted = re.search(r"(\d+) passed, (\d+) failed\n$", got.stdout)
    tally.passed += int(counted[1]) if counted else 0
    tally.check(got.returncode == 0, f"tests/{name} {words}: {got.stdout[-1000:]}{got.stderr[-1000:]}")


def same(tally: Tally, name: str, words: list[str], data: bytes = b"") -> bytes:
    """What a program writes, as its native build does."""
    got, wanted = (run([program, *words], data) for program in (OUT / "target/release" / name, built(name)))
    tally.same(f"{name} {' '.join(words)}", got, wanted)
    return wanted.stdout


def words(tally: Tally, native: Path, rng: random.Random) -> None:
    """words that are options, or nearly"""
    with tempfile.TemporaryDirectory() as folder:
        for _ in range(100):
            drawn = [rng.choice(WORDS) for _ in range(rng.randint(1, 4))]
            got, wanted = (run([program, *drawn], cwd=folder) for program in (BUILT_BY_CARGO, native))
            tally.same(f"words {drawn}", got, wanted)


def loads(tally: Tally) -> None:
    """loads, and verdicts on their histories, also with a line too many"""
    with tempfile.TemporaryDirectory() as folder:
        for load in map(str.split, LOADS):
            data, options = same(tally, "rubis_load", load), [*load[2:4], "--users", "1000", "--categories", "100"]
            history = Path(folder, "history")
            for more in (b"", b"0 1 0 0 item 0.0\n"):
                history.write_bytes(run([BUILT_BY_CARGO, *options, "--history"], data).stdout + more)
                said = same(tally, "rubis_check", [*options, "--history", str(history)], data)
                tally.check((said == b"the history replays\n") == (not more), f"rubis_check, {more!r}: {said!r}")
    for name, word in itertools.product(("rubis_load", "rubis_check"), WORDS):
        same(tally, name, [word])


def perform(log: Path, drawn: list[str], *programs: Path) -> tuple[list[Outcome], bytes]:
    """What programs answer that have a log one after the other, and the log."""
    half = len(drawn) // 2
    parts = ("".join(f"0,{line}\n" for line in part) for part in (drawn[:half], drawn[half:]))
    log.unlink(missing_ok=True)
    words = ("--live", "3", "--log", log)
    outcomes = [run([program, *words], part.encode()) for program, part in zip(programs, parts)]
    return outcomes, log.read_bytes()


def logs(tally: Tally, native: Path, rng: random.Random) -> None:
    """logs that one program wrote and the other reads and goes on with"""
    with tempfile.TemporaryDirectory() as folder:
        log = Path(folder) / "log"
        for _ in range(5):
            drawn = [*FIRST, *requests(rng, 60)]
            wanted = perform(log, drawn, native, native)
            for pair in itertools.product((native, BUILT_BY_CARGO), repeat=2):
                got = perform(log, drawn, *pair)
                tally.check(got == wanted, f"a log of {pair}: {[described(outcome) for outcome in got[0]]}")


def refused_memory(tally: Tally) -> None:
    """allocations that are refused, one or all from one on"""
    with tempfile.TemporaryDirectory() as folder:
        shim = build_shim("refused_memory", Path(folder))
        if shim is None:
            tally.skip("refused allocations", "there is no C compiler")
            return
        for case in cases()[:FEW_CASES]:
            refusing = Refusing(shim, [BUILT_BY_CARGO, *case.options.words()], case.data)
            for refusal in itertools.chain(refusing.each(False), refusing.each(True)):
                tally.check(case.may_answer(refusal.outcome), f"{case.name}, {refusal}: {described(refusal.outcome)}")


def other_languages(tally: Tally) -> None:
    """the C library and the Python module over it, beside the program"""
    sys.path.insert(0, str(RUST / "fundreivo_c"))
    import fundreivo

    library = BUILT_BY_CARGO.parent / "libfundreivo_c.so"
    first, contended = ((EXAMPLES / f"{name}.csv").read_bytes() for name in ("first_example", "contended"))
    asked = [(first, []), (contended, ["--workers", "2", "--history"]), (first, ["--rows"]), (b"", ["--workers", "17"])]
    asked += [(b"0,viewitem,x\n", []), (b"0,+bid,0,0.0,1,1\n", []), (b"", []), (first, ["--fast", "--report"])]
    with tempfile.TemporaryDirectory() as folder:
        program = Path(folder) / "program"
        compiler = next(filter(None, map(shutil.which, ("cc", "gcc", "clang"))), None)
        if compiler:
            words = ["-Wall", "-Wextra", "-Werror", "-I", RUST / "fundreivo_c", TESTS / "lib/c_library.c", library]
            subprocess.run([compiler, *words, "-o", program, f"-Wl,-rpath,{library.parent}"], check=True)
        else:
            tally.skip("the C library", "there is no C compiler")
        for data, drawn in asked:
            wanted = run([BUILT_BY_CARGO, *drawn], data)
            if compiler:
                tally.same(f"the C library, {drawn}", run([program, *drawn], data), wanted)
            try:
                got = Outcome(0, fundreivo.run(data, *drawn), b"")
            except fundreivo.Fault as fault:
                got = Outcome(fault.status, b"", f"{fault}\n".encode())
            tally.check(
                (got.status, got.stdout, got.stderr.strip()) == (wanted.status, wanted.stdout, wanted.stderr.strip()),
                f"the Python module, {drawn}: wanted {described(wanted)}; got {described(got)}",
            )
        try:
            fundreivo.run(first, "--log", "x")
            tally.check(False, "a call that would serve")
        except fundreivo.Fault as fault:
            tally.check(fault.status == 1, f"a call that would serve: {fault}")


def same_bytes(tally: Tally, asked: Namespace) -> None:
    """the same bytes as a native build, or else as the model has them"""
    native = asked.native or (BUILT if BUILT.exists() else None)
    if native is None:
        tally.skip("the comparison with a native build", f"there is no {BUILT.relative_to(ROOT)}")
        script(tally, "second_opinion.py", BUILT_BY_CARGO, "--seconds", 20, "--seed", asked.seed)
        return
    script(tally, "compare_programs.py", native, BUILT_BY_CARGO, "--inputs", asked.inputs, "--seed", asked.seed)
    tally.tell(words, tally, native, random.Random(asked.seed))
    tally.tell(logs, tally, native, random.Random(asked.seed))
    if all(built(name).exists() for name in ("rubis_load", "rubis_check")):
        tally.tell(loads, tally)


def main() -> None:
    asked = parser_of(__doc__)
    asked.add_argument("native", nargs="?", type=executable)
    asked.add_argument("--inputs", type=int, default=300)
    asked.add_argument("--seed", type=int, default=random.randrange(10**6))
    asked = asked.parse_args()
    tally = Tally()
    export(tally)
    for check in (refuses, exports, says_what_to_install):
        tally.tell(check, tally)
    if why := reason_to_skip():
        tally.skip("what cargo builds", why)
        tally.finish()
    print(f"seed {asked.seed}", flush=True)
    builds(tally)
    script(tally, "worked.py", BUILT_BY_CARGO)
    tally.tell(same_bytes, tally, asked)
    for check in (refused_memory, other_languages, tests, changes):
        tally.tell(check, tally)
    tally.finish()


if __name__ == "__main__":
    main()
