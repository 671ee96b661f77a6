#!/usr/bin/env python3
"""Shows that tests/edits.py tells the edits that the prover refuses from all others, on crates made up here. Without
`rt` it is skipped.

    tests/edits_tests.py
"""

import os
import re
import shutil
import signal
import sys
import time
from pathlib import Path
from subprocess import PIPE, CompletedProcess, Popen, check_call
from tempfile import TemporaryDirectory

from edits import Trial
from lib.kit import functions_of_kit
from lib.program import TESTS, Tally, described, run

# Of these `wrong` is not proved, and the library of `above` is not built.
CRATES = "steps:\nwrong:\nabove: steps\n"
SOURCES = {
    "steps": """//! Steps, and values with a unit.
#![tactic(auto)]
ghost use Rattle.std.specs.Prelude.{◌≤◌, ◌≡◌, ◌+◌};

fn next(n: u8) -> u8
    requires { n ≤ 200 }
    ensures { result ≡ n + 1 }
{
    n + 1
}

/// Two steps.
pub fn next_but_one(n: u8) -> u8
    requires { n ≤ 100 }
    ensures { result ≡ n + 2 }
{
    next(next(n))
}

/// Three steps.
pub fn next_but_two(n: u8) -> u8
    requires { n ≤ 100 }
    ensures { result ≡ n + 3 }
{
    next(next_but_one(n))
}

/// A value with a unit.
pub struct Of<T, U> {
    /// The value.
    pub value: T,
    /// Its unit.
    pub unit: U,
}

impl<U> Of<u8, U> {
    /// The value alone.
    pub fn alone(&self) -> u8
        ensures { result ≡ self.now.value }
    {
        self.value
    }
}

impl<U> Of<u16, U> {
    /// The value alone.
    pub fn alone(&self) -> u16
        ensures { result ≡ self.now.value }
    {
        0 + self.value
    }
}
""",
    "wrong": """//! A step that is none.
#![tactic(auto)]
ghost use Rattle.std.specs.Prelude.{◌≡◌, ◌+◌};

/// One more, it says.
pub fn next(n: u8) -> u8
    ensures { result ≡ n + 1 }
{
    n
}
""",
    "above": "//! Nothing.\n#![tactic(auto)]\n\n/// Nothing.\npub fn nothing() {}\n",
}
# An answer, which is refused by itself, and told apart from `search` if a function that it calls is refused.
ANSWER = """use Rattle.std.proofs.Common.{arith}
use Rattle.steps.proofs.next_but_two.Goals as goal

pub returns : goal.returns
returns c = omega (arith, c.next_but_one.ensures, c.next.ensures)
"""
# Edits of each crate: an old text, a new one, and what is said of the edit.
NOT_TRIED = "FAILED {}: not tried: "
EDITS = {
    "steps": {
        "takes_two_steps": ("    n + 1", "    n + 2", "{}: refused: "),
        # It calls the function above, which is refused in the same check.
        "changes_nothing": ("    next(next(n))", "    let n = next(n); next(n)", "FAILED {}: NOT REFUSED: "),
        # So does this one, whose own answer is refused: it is checked again without the other.
        "takes_four_steps": ("    next(next_but_one(n))", "    next(next(next_but_one(n)))", "{}: refused: "),
        # Its function meets the new contract, and a caller needs the old one.
        "breaks_its_caller": ("result ≡ n + 1 }", "result ≤ n + 1 }", r"{}: refused, as it must be: .*\(alone\)"),
        # Two functions have this name.
        "forgets_the_value": ("        self.value", "        0", "{}: refused: "),
        "forgets_the_wide_value": ("        0 + self.value", "        0", "{}: refused: "),
        "is_not_there": ("    n - 1", "    n", r"FAILED {}: an 'old:' text is in src/lib\.rt 0 times"),
    },
    "wrong": {"takes_two_steps": ("    n", "    n + 2", NOT_TRIED + "wrong as it stands: status 1: ")},
    "above": {"does_nothing": ("pub fn nothing() {}", "pub fn nothing() { }", NOT_TRIED + "no library steps ")},
}


def write(folder: Path) -> None:
    """The repository, whose first commit has its crates without their edits."""
    (folder / "crates.txt").write_text(CRATES)
    for crate, source in SOURCES.items():
        (folder / "crates" / crate / "src").mkdir(parents=True)
        (folder / "crates" / crate / "src" / "lib.rt").write_text(source)
    answers = folder / "crates" / "steps" / "proofs" / "next_but_two"
    answers.mkdir(parents=True)
    (answers / "Answers.antt").write_text(ANSWER)
    git = ["git", "-C", folder, "-c", "user.name=maker", "-c", "user.email=maker@localhost"]
    for words in (["init", "-q"], ["add", "-A"], ["commit", "-q", "-m", "All"]):
        check_call([*git, *words])
    for crate, edits in EDITS.items():
        (folder / "crates" / crate / "edits").mkdir()
        for name, (old, new, _) in edits.items():
            text = f"file: src/lib.rt\nold: {old}\nnew: {new}\n"
            (folder / "crates" / crate / "edits" / f"{name}.edit").write_text(text)


def each_edit(tally: Tally, folder: Path) -> None:
    """what is said of each edit, and the count"""
    got = run([sys.executable, "-B", TESTS / "edits.py"], cwd=folder)
    *lines, last = got.stdout.decode().splitlines()
    wanted = [(f"{crate}/{name}.edit", said) for crate, edits in EDITS.items() for name, (*_, said) in edits.items()]
    for label, said in wanted:
        tally.check(any(re.match(said.replace("{}", label), line) for line in lines), f"{label}: {said}: {lines}")
    failed = sum(said.startswith("FAILED") for _, said in wanted)
    tally.check(len(lines) == len(wanted), f"a line for each edit: {described(got)}")
    tally.check((got.status, last) == (1, f"{len(wanted) - failed} passed, {failed} failed"), f"the count: {last}")


def words(tally: Tally, folder: Path) -> None:
    """edits that are only read, those of crates that changed since a commit, over an old library, and wrong words"""
    library = folder / "crates" / "steps" / "out" / "rlib"
    (library / "steps.rlib").mkdir(parents=True)
    (library / "stamp").write_text("of other sources")
    for asked, status, said in (
        (["--read", "steps"], 1, "6 passed, 1 failed"),
        (["--since", "HEAD", "above"], 1, "no library steps that fits"),
        (["--since", "HEAD", "--read"], 2, "not allowed with"),
        (["--since", "none"], 1, "none"),
        (["none"], 2, "there is no crate none"),
    ):
        got = run([sys.executable, "-B", TESTS / "edits.py", *asked], cwd=folder)
        tally.check(got.status == status and said in (got.stdout + got.stderr).decode(), f"{asked}: {described(got)}")
    for crate in EDITS:
        shutil.rmtree(folder / "crates" / crate / "edits")
    got = run([sys.executable, "-B", TESTS / "edits.py", "--since", "HEAD"], cwd=folder)
    tally.check(got.stdout == b"0 passed, 0 failed\n", f"nothing changed: {described(got)}")


def interruption(tally: Tally, folder: Path) -> None:
    """a check that is killed, and an interruption of the script: a line for each edit, and nothing is left"""
    rt = functions_of_kit()
    rt.checked = lambda *_: CompletedProcess([], -signal.SIGKILL, "")
    crate = next(it for it in rt.rtlib.crates_below(str(folder)) if it.name == "wrong")
    got = list(Trial(rt, crate, str(folder)).results(only_read=False))
    told = "wrong/takes_two_steps.edit: not tried: wrong as it stands: status -9: "
    tally.check(got == [(False, told)], f"a killed check: {got}")
    temporary = folder / "temporary"
    temporary.mkdir()
    how = {"cwd": folder, "env": os.environ | {"TMPDIR": str(temporary), "RT_JOBS": "1"}}
    with Popen([sys.executable, "-B", TESTS / "edits.py"], stdout=PIPE, text=True, **how) as process:
        while process.poll() is None and not list(temporary.glob("rt-edit-*")):
            time.sleep(0.01)
        process.send_signal(signal.SIGINT)
        lines = process.communicate()[0].splitlines()
    wanted = sum(map(len, EDITS.values()))
    told = sum(line.startswith("FAILED ") and ".edit: " in line for line in lines)
    ended = (process.returncode, lines[-1:], list(temporary.iterdir()))
    tally.check(told == wanted and ended == (1, [f"0 passed, {wanted} failed"], []), f"interrupted: {lines}, {ended}")


def main() -> None:
    tally = Tally()
    if shutil.which("rt") is None:
        tally.skip("edits", "there is no `rt` on the path")
        tally.finish()
    with TemporaryDirectory() as name:
        folder = Path(name).resolve()
        write(folder)
        for check in (each_edit, interruption, words):
            tally.tell(check, tally, folder)
    tally.finish()


if __name__ == "__main__":
    main()
