#!/usr/bin/env python3
"""Shows that the prover refuses each edit of crates/*/edits, a false claim in the form of a must-fail edit.

    tests/edits.py [--since COMMIT | --read] [CRATE ..]

Edits are tried over the libraries that `rt ci` left, those of several functions in one check, since the checker tells
of each function by itself whether it is refused. One that merely calls a refused one counts for nothing, and so does
each of a crate that is not proved as it stands. An edit that no such check shows refused, or that changes more than
functions, is tried alone, as `rt must-fail` does. Crates are tried side by side: RT_JOBS at once, or else one per
processor and 4 GB.
"""

import os
import re
import shutil
import signal
import subprocess
from concurrent.futures import ThreadPoolExecutor
from dataclasses import dataclass
from pathlib import Path
from subprocess import CompletedProcess
from tempfile import TemporaryDirectory
from threading import Thread
from types import ModuleType
from typing import Any, Iterator

from lib.kit import functions_of_kit, lanes
from lib.program import Tally, end, on_one_line, parser_of

FUNCTION = re.compile(r"( *)(?:pub(?:\([\w: ]+\))? )?(?:(?:const|final|unsafe) )*fn (\w+)")
# What the checker says of each function, and of names that are of no function or of several.
SAID = re.compile(r"(?m)^fn (\S+): (.*)$")
NO_FUNCTION = re.compile(r"`\w+` has no function `(\w+)`")
SEVERAL = re.compile(r"several functions are named `(\w+)`: help: write one of (.*)")
NOT_PROVED, NO_PROOF_OF, REFUSED_ALONE = "not proved", "`search` did not prove", "refused, as it must be"
# A refusal that says little of a contract: a search gave up, a limit was met, or a proof names what the edit took away.
WEAK = re.compile(
    "; .search. g|ran out of|only by a limit|says (little|less) of the contract"
    "|has no field|is not in scope|has no `|was not admitted"
)
MOST_SHOWN = 160

# Whether an edit was refused, and what to say of it.
Result = tuple[bool, str]


@dataclass(frozen=True)
class Edit:
    """The lines that an edit changes, by file and place, and the functions that they belong to, each with its module;
    no function if a line belongs to none."""

    path: Path
    lines: dict[tuple[str, int], str]
    functions: dict[str, str]


def function_at(lines: list[str], place: int) -> str | None:
    """The function whose body has a line of a formatted file. Its contract is none of its body: an edit there may have
    the functions refused that call it."""
    for start in range(place - 1, -1, -1):
        if head := FUNCTION.match(lines[start]):
            margin = [at for at in range(start, len(lines)) if re.match(rf"{head[1]}\S", lines[at])]
            opens = next((at for at in margin if lines[at].endswith("{")), place)
            if opens < place < next((at for at in margin if at > opens), place):
                return head[2]
    return None


class Trial:
    """Tries the edits of a crate, over what its checks keep in a folder."""

    def __init__(self, rt: ModuleType, crate: Any, kept: str) -> None:
        self.rt, self.crate, self.kept = rt, crate, kept

    def lines_of(self, file: str) -> list[str]:
        return (Path(self.crate.folder) / file).read_text().split("\n")

    def read(self, path: Path) -> Edit | str:
        """An edit, or why it cannot be applied."""
        texts, why = self.rt.read_edit(str(path), self.crate.folder)
        if why:
            return why
        lines: dict[tuple[str, int], str] = {}
        functions: dict[str | None, str] = {}
        for file, text in texts.items():
            module = "::".join([self.crate.name, *Path(file).with_suffix("").parts[1:]]).removesuffix("::lib")
            old = self.lines_of(file)
            for place, line in enumerate(text.split("\n")):
                if line != old[place]:
                    lines[file, place] = line
                    functions[function_at(old, place) if file.endswith(".rt") else None] = module
        return Edit(path, lines, {} if None in functions else functions)

    def results(self, only_read: bool) -> Iterator[Result]:
        """What each edit comes to."""
        edits = []
        for path in sorted((Path(self.crate.folder) / "edits").glob("*.edit")):
            match self.read(path):
                case Edit() as edit:
                    edits.append(edit)
                case why:
                    yield False, f"{self.label(path)}: {why}"
        why = None if only_read or not edits else self.why_not_tried(edits)
        if only_read or why:
            yield from ((not why, f"{self.label(edit.path)}: {why}" if why else "") for edit in edits)
            return
        for group in groups(edits):
            yield from self.results_of(group)

    def results_of(self, group: list[Edit]) -> Iterator[Result]:
        """What each edit of a group comes to. One whose function calls a refused one is checked again without that."""
        said = self.check(group).stdout if group[0].functions else ""
        shown = {edit.path: why for edit in group if (why := next(refusals(edit, said), None))}
        yield from ((True, f"{self.label(path)}: refused: {why[:MOST_SHOWN]}") for path, why in shown.items())
        left = [edit for edit in group if edit.path not in shown]
        yield from self.results_of(left) if shown and left else map(self.alone, left)

    def label(self, path: Path) -> str:
        return f"{self.crate.name}/{path.name}"

    def why_not_tried(self, edits: list[Edit]) -> str | None:
        """Why no edit shows anything: the crate is not proved as it stands, or its check was interrupted."""
        libraries = self.crate.below()
        # `rt check` leaves a stamp beside a library, and `rt ci` none; those of one do not fit those of the other.
        are_stamped = any(Path(library.rlib).with_name("stamp").exists() for library in libraries)
        for library in libraries:
            if not Path(library.rlib).is_dir() or are_stamped and not library.is_built():
                return f"not tried: no library {library.name} that fits: rm -r crates/*/out/rlib, then `rt ci`"
        ran = self.check([], functions_of(edits) if all(edit.functions for edit in edits) else {})
        last = (ran.stdout.strip().splitlines() or [""])[-1]
        return f"not tried: {self.crate.name} as it stands: status {ran.returncode}: {last}" if ran.returncode else None

    def check(self, edits: list[Edit], functions: dict[str, str] | None = None) -> CompletedProcess[str]:
        """A check with edits, of the functions that they change, or of others, or of all if there are none."""
        functions = functions_of(edits) if functions is None else functions
        only = {name: [name] for name in functions}
        while True:
            words = [word for names in only.values() for name in names for word in ("--only", name)]
            ran = self.rt.checked(self.crate, self.texts(edits), ["--jobs", "1", *words], self.kept)
            if (found := NO_FUNCTION.search(ran.stdout)) and found[1] in only:
                del only[found[1]]
            elif (found := SEVERAL.search(ran.stdout)) and only.get(found[1]) == [found[1]]:
                named = re.findall("`([^`]+)`", found[2])
                only[found[1]] = [it for it in named if it.startswith(f"{functions[found[1]]}::")] or named
            else:
                return ran

    def texts(self, edits: list[Edit]) -> dict[str, str]:
        """The files that edits of different functions change, with all of them."""
        files = {file: self.lines_of(file) for edit in edits for file, _ in edit.lines}
        for edit in edits:
            for (file, place), line in edit.lines.items():
                files[file][place] = line
        return {file: "\n".join(lines) for file, lines in files.items()}

    def alone(self, edit: Edit) -> Result:
        """What an edit comes to by itself, in the kit's words."""
        said = self.rt.must_fail(self.crate, str(edit.path), ["--jobs", "1"], self.kept)[1]
        shown = on_one_line(said.removeprefix("must-fail "))[: len(self.label(edit.path)) + MOST_SHOWN]
        return REFUSED_ALONE in said and not WEAK.search(said), f"{shown} (alone)"


def functions_of(edits: list[Edit]) -> dict[str, str]:
    return {name: module for edit in edits for name, module in edit.functions.items()}


def groups(edits: list[Edit]) -> list[list[Edit]]:
    """Groups of edits that can be told apart: no two of functions of one name. An edit of no function is alone."""
    found: list[list[Edit]] = []
    for edit in edits:
        names = edit.functions.keys()
        fits = (it for it in found if names and it[0].functions and not names & functions_of(it).keys())
        group = next(fits, None)
        if group is None:
            found.append(group := [])
        group.append(edit)
    return found


def refusals(edit: Edit, said: str) -> Iterator[str]:
    """What the checker says of refused functions of an edit, and of their closures."""
    for path, verdict in SAID.findall(said):
        crate, *owners, name = path.split("::")
        names = {name.partition("+")[0], *(owners[owners.index("fn") + 1 :] if "fn" in owners else ())}
        if not names & edit.functions.keys():
            continue
        if NO_PROOF_OF in verdict and not WEAK.search(verdict):
            yield verdict[verdict.index(NO_PROOF_OF) :]
        proofs = re.escape("/".join(["proofs", *owners, name]))
        errors = re.findall(rf"(?m)^(?:\./)?{proofs}/\S+ error: (.*)", said) if verdict == NOT_PROVED else []
        yield from (error for error in errors if not WEAK.search(error))


def changed_since(commit: str, crates: list[Any]) -> list[Any]:
    """The crates that changed since a commit, and those above."""

    def git(*words: str) -> list[str]:
        ran = subprocess.run(["git", *words], capture_output=True, text=True)
        return ran.stdout.splitlines() if ran.returncode == 0 else end(ran.stderr)

    old_lines = git("show", f"{commit}:crates.txt")
    files = git("diff", "--name-only", commit, "--", "crates")
    files += git("ls-files", "--others", "--exclude-standard", "crates")
    changed = {file.split("/")[1] for file in files}
    changed |= {it.partition(":")[0] for it in Path("crates.txt").read_text().splitlines() if it not in old_lines}
    return [crate for crate in crates if any(it.name in changed for it in (crate, *crate.below()))]


def stop_if_interrupted(rt: ModuleType) -> None:
    """Has an interruption end all checks, also those to come: each edit that is left is told to be not tried."""
    group = int(subprocess.check_output([*rt.rtlib.guarded(), "cut", "-d ", "-f5", "/proc/self/stat"]))
    interruptions = {signal.SIGINT, signal.SIGTERM}

    def stop() -> None:
        signal.sigwait(interruptions)
        rt.checked = lambda *_: CompletedProcess([], -signal.SIGINT, "interrupted")
        os.killpg(group, signal.SIGKILL)

    # One that comes just before the main thread waits for a result would wake it only with that result.
    signal.pthread_sigmask(signal.SIG_BLOCK, interruptions)
    Thread(target=stop, daemon=True).start()


def main() -> None:
    words = parser_of(__doc__)
    which = words.add_mutually_exclusive_group()
    which.add_argument("--since", metavar="COMMIT", help="only crates that changed since a commit, and those above")
    which.add_argument("--read", action="store_true", help="only show that each can be applied")
    words.add_argument("crates", metavar="CRATE", nargs="*", help="only these crates")
    asked = words.parse_args()
    tally = Tally()
    if shutil.which("rt") is None:
        tally.skip("edits", "there is no `rt` on the path")
        tally.finish()
    rt = functions_of_kit()
    crates = rt.rtlib.crates_below(os.getcwd())
    if unknown := set(asked.crates) - {crate.name for crate in crates}:
        words.error(f"there is no crate {min(unknown)}")
    wanted = changed_since(asked.since, crates) if asked.since else crates

    def results(crate: Any) -> list[Result]:
        with TemporaryDirectory(prefix="edits-") as kept:
            return list(Trial(rt, crate, kept).results(asked.read))

    stop_if_interrupted(rt)
    with ThreadPoolExecutor(lanes(rt)) as pool:
        for found in pool.map(results, [it for it in wanted if not asked.crates or it.name in asked.crates]):
            for is_well, text in found:
                if text:
                    print(text if is_well else f"FAILED {text}", flush=True)
                tally.passed, tally.failed = tally.passed + is_well, tally.failed + (not is_well)
    tally.finish()


if __name__ == "__main__":
    main()
