"""Running the program under test, and counting what passed and what failed."""

import os
import resource
import shutil
import signal
import sys
import tempfile
import time
from dataclasses import dataclass
from pathlib import Path
from subprocess import PIPE, Popen, TimeoutExpired, check_call
from typing import Any, Callable, IO

from command_line import end, executable, parser_of
from lib.model import Outcome

LIB = Path(__file__).resolve().parent
TESTS, ROOT = LIB.parent, LIB.parents[1]
BENCH, CRATES, DOCUMENTS, EXAMPLES = (ROOT / name for name in ("bench", "crates", "docs", "examples"))

# What a program reads: these bytes, or a file.
Given = bytes | int | IO[bytes]

# What a program may map whose memory does not grow with its input.
LITTLE_MEMORY = 64 << 20
NOBODY = 65534

# No test cuts the power: so servers keep their files in memory, where syncs take no time, if
# so many bytes are free there.
MEMORY, ROOM = Path("/dev/shm"), 1 << 30
# What runs so long hangs. No run takes a tenth of it, so that a busy machine fails no test.
SECONDS = 600
MOST_FAILURES = 20


# Where tests/all.sh --unproved has programs and tests.
UNPROVED = os.environ.get("UNPROVED")


def built(name: str) -> Path:
    """The program of a crate, as `rt ci` and `rt run` build it."""
    return Path(UNPROVED or CRATES / name / "out", name)


def built_tests(name: str) -> Path:
    """The tests of a crate, as `rt ci` and `rt test` build them: a program that runs the
    test of the name it is given."""
    return Path(UNPROVED or CRATES / name / "out", f"{name}_tests")


BUILT = built("rubis_auction")


def two_programs(text: str) -> tuple[Path, Path]:
    """The program and the referee that the words of a script name, or those that are built."""
    words = parser_of(text)
    words.add_argument("program", nargs="?", type=executable, default=str(BUILT))
    words.add_argument("checker", nargs="?", type=executable, default=str(built("rubis_check")))
    asked = words.parse_args()
    return asked.program, asked.checker


def run(command: list, stdin: Given = b"", **how: Any) -> Outcome:
    """Runs a command in a session of its own. The status is negative where a signal ended it."""
    given = stdin if isinstance(stdin, bytes) else None
    how = {"stdin": stdin if given is None else PIPE, "stdout": PIPE, "stderr": PIPE} | how
    with Popen([os.fspath(word) for word in command], start_new_session=True, **how) as process:
        try:
            stdout, stderr = process.communicate(given, timeout=SECONDS)
        except TimeoutExpired:
            was_running(process.pid)
            return Outcome(-signal.SIGKILL, b"", f"still running after {SECONDS} seconds".encode())
    if was_running(process.pid):
        return Outcome(-signal.SIGKILL, b"", b"something was left running")
    return Outcome(process.returncode, stdout or b"", stderr or b"")


def run_typed(command: list, typed: bytes, **how: Any) -> Outcome:
    """Runs a command whose standard input is a terminal, on which this is typed."""
    keyboard, terminal = os.openpty()
    try:
        os.write(keyboard, typed)
        return run(command, terminal, **how)
    finally:
        os.close(terminal)
        os.close(keyboard)


def was_running(session: int) -> bool:
    """Whether something of a session is still there after a while. It is no more. What has ended is there until it is
    waited for, which may take a second or two where its parent ended before it."""
    until = time.monotonic() + 5
    try:
        while time.monotonic() < until:
            os.killpg(session, 0)
            time.sleep(0.01)
        os.killpg(session, signal.SIGKILL)
    except ProcessLookupError:
        return False
    return True


def is_asleep(process: int) -> bool:
    """Whether a child that was not waited for yet sleeps, as Linux tells behind its name: S if it
    does, R if it runs or could."""
    return Path(f"/proc/{process}/stat").read_text().rpartition(") ")[2].startswith("S")


def build_shim(name: str, folder: Path) -> Path | None:
    """Compiles a shim for LD_PRELOAD from tests/lib/NAME.c, where there is a compiler."""
    compiler = next(filter(None, map(shutil.which, ("cc", "gcc", "clang"))), None)
    if compiler is None:
        return None
    shim = folder / f"{name}.so"
    check_call(
        [compiler, "-Wall", "-Wextra", "-Werror", "-shared", "-fPIC", "-O1", "-o", shim, LIB / f"{name}.c", "-ldl"]
    )
    return shim


def servers_folder() -> tempfile.TemporaryDirectory:
    """A folder for the files of servers, in memory if there is room."""
    in_memory = MEMORY.is_dir() and shutil.disk_usage(MEMORY).free >= ROOM
    return tempfile.TemporaryDirectory(dir=MEMORY if in_memory else None)


def in_little_memory() -> None:
    resource.setrlimit(resource.RLIMIT_AS, (LITTLE_MEMORY, LITTLE_MEMORY))


def become_nobody() -> None:
    """Root, whom no permission and no limit holds, becomes another user."""
    if os.geteuid() == 0:
        os.setgroups([])
        os.setresgid(NOBODY, NOBODY, NOBODY)
        os.setresuid(NOBODY, NOBODY, NOBODY)


def fault(status: int, text: str) -> Outcome:
    return Outcome(status, b"", f"rubis_auction: {text}\n".encode())


def shown(text: bytes) -> str:
    return repr(text if len(text) <= 300 else text[:200] + b" .. " + text[-80:])


def described(outcome: Outcome) -> str:
    return f"status {outcome.status}, output {shown(outcome.stdout)}, error {shown(outcome.stderr)}"


def on_one_line(text: str) -> str:
    return " ".join(text.split())


@dataclass
class Tally:
    passed: int = 0
    failed: int = 0

    def check(self, holds: bool, what: str) -> None:
        if holds:
            self.passed += 1
            return
        self.failed += 1
        print(f"FAILED {what}", flush=True)
        if self.failed == MOST_FAILURES:
            print("Nothing more is tried after so many failures.")
            self.finish()

    def same(self, what: str, got: Outcome, wanted: Outcome) -> None:
        self.check(got == wanted, f"{what}: wanted {described(wanted)}; got {described(got)}")

    def skip(self, what: str, why: str) -> None:
        print(f"SKIPPED {on_one_line(what)}: {why}", flush=True)

    def tell(self, check: Callable[..., None], *given: object) -> None:
        """Makes a check of what is given, and tells how many tests passed in it, and how long it took."""
        started, passed = time.monotonic(), self.passed
        check(*given)
        took = time.monotonic() - started
        print(f"{self.passed - passed:6} passed in {took:5.1f} s: {on_one_line(check.__doc__)}", flush=True)

    def finish(self) -> None:
        print(f"{self.passed} passed, {self.failed} failed", flush=True)
        sys.exit(1 if self.failed else 0)
