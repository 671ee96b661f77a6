#!/usr/bin/env python3
"""Shows that tests/package.sh packs the programs so that they run with nothing else: in a clone made up
here, with the built programs.

    tests/packaged.py
"""

import os
import shutil
import sys
import tarfile
import tempfile
from hashlib import sha256
from pathlib import Path
from typing import Any

from lib.model import Outcome
from lib.program import CRATES, DOCUMENTS, ROOT, Tally, built, described, run

PROGRAMS = ("rubis_auction", "rubis_check", "rubis_load")
PACKED = ("README.md", "LICENSE", "CHANGELOG.md", "docs", "examples")
# The commit is made at a time of its own, with no settings of the user's.
TIME = 1_700_000_000
AT = "2023-11-14T22:13:20Z"
MAKER = {"NAME": "maker", "EMAIL": "maker@localhost", "DATE": f"{TIME} +0000"}
SETTINGS = {"GIT_CONFIG_GLOBAL": os.devnull, "GIT_CONFIG_NOSYSTEM": "1"} | {
    f"GIT_{who}_{what}": text for who in ("AUTHOR", "COMMITTER") for what, text in MAKER.items()
}
ELSEWHERE = {"TZ": "Asia/Kolkata", "LANG": "C.UTF-8"}

# What tests/all.sh prints, shortened.
LOG = """commit {commit}, no changes, rattle-kit-0 logic 0123abcd, {AT}
== rubis_load
logic=proved functions=12 sum=0123abcd native=nat,char,string logic-built=trusted
rt: rubis_load proved
== rubis_load: its tests
logic=proved tests=2 functions=14 sum=0123abcd native=nat,char,string logic-built=trusted
rt: rubis_load: its tests are proved
== rubis_check
logic=proved functions=30 may-wait=1 sum=0123abcd native=nat,char,string logic-built=trusted
rt: rubis_check proved
rt: must-fail rubis_check/loses_a_reply.edit: refused, as it must be: src/main.rt:7:1: error: not proved
rt: must-fail rubis_check/loses_a_fault.edit: refused, as it must be
rt: must-fail rubis_load/draws_twice.edit: refused, as it must be
rt: rubis_load: its tests passed
rt: ok; handles allowed: Threads
5 passed, 0 failed
{sums}
== tests/edits.py --since HEAD~1
rubis_check/takes_any_reply.edit: refused: `search` did not prove `returns`
rubis_load/draws_none.edit: refused, as it must be: note: src/main.rt:7:1: it is not proved (alone)
2 passed, 0 failed
== tests/documents.py
1000 passed, 0 failed
1007 passed, 0 failed
"""
TOLD = f"""gate: tests/all.sh, begun {AT}
kit: rattle-kit-0 logic 0123abcd
logic: 0123abcd
crates proved: 2
functions proved: 42
edits refused: 5
crates, edits and tests: 1007 passed, 0 failed
"""
# Of a crate that an earlier run proved `rt ci` says less, and so does MANIFEST.
KEPT = LOG[LOG.index("== rubis_check\n") : LOG.index("rt: must-fail")], "rt: rubis_check is kept: an earlier run\n"
TOLD_OF_KEPT = "crates proved: 2, 1 of them in earlier runs\nfunctions proved: 12 in this run\n"
# Stands for rust/build, with and without the crates of others.
EXPORTS = "#!/bin/sh\nmkdir -p rust/out/target && echo lock | tee rust/out/Cargo.lock > rust/out/target/built\n"
LACKS = "#!/bin/sh\necho 1 crate\necho 'error: no package named `anyhow`\nlocation: none' >&2\nexit 101\n"


def sum_of(name: str) -> str:
    return sha256(built(name).read_bytes()).hexdigest()


class Clone:
    """A clone whose programs are built, as `rt ci` leaves them."""

    def __init__(self, folder: Path) -> None:
        self.folder = folder
        self.into = folder.with_name("packed")
        self.archive = Path()
        for name in (
            ".gitignore",
            "HANDLES",
            "crates.txt",
            "tests/package.sh",
            *PACKED,
            "crates",
        ):
            self.copy(name)
        (folder / "rust").mkdir()
        (folder / "rust" / "build").write_text(EXPORTS)
        (folder / "rust" / "build").chmod(0o755)
        for words in (["init", "-q"], ["add", "-A"], ["commit", "-q", "-m", "All"]):
            self.git(*words)
        self.build()

    def copy(self, name: str) -> None:
        source, to = ROOT / name, self.folder / name
        to.parent.mkdir(parents=True, exist_ok=True)
        if source.is_dir():
            shutil.copytree(source, to, ignore=shutil.ignore_patterns("out", "__pycache__"))
        else:
            shutil.copy(source, to)

    def git(self, *words: str) -> str:
        return run(["git", "-C", self.folder, *words], env=os.environ | SETTINGS).stdout.decode().strip()

    def build(self) -> None:
        """The built programs, and what they wrote when they were run."""
        for name in PROGRAMS:
            out = self.folder / "crates" / name / "out"
            out.mkdir(exist_ok=True)
            shutil.copy(built(name), out / name)
            shutil.copy(CRATES / name / "stdout", out)

    def log(self, old: str = "", new: str = "") -> Path:
        """A log of this clone, in which one text is replaced."""
        log = self.folder.with_name("log")
        sums = "\n".join(f"{sum_of(name)}  crates/{name}/out/{name}" for name in PROGRAMS)
        log.write_text(LOG.format(commit=self.git("rev-parse", "HEAD"), AT=AT, sums=sums).replace(old, new, 1))
        return log

    def package(self, *words: str | Path, **how: Any) -> Outcome:
        how = {"cwd": self.folder.parent} | how
        return run(
            [self.folder / "tests" / "package.sh", *words], env=os.environ | SETTINGS | how.pop("env", {}), **how
        )


def make_archive(tally: Tally, clone: Clone) -> None:
    """an archive of a clone"""
    got = clone.package(clone.into)
    clone.archive = Path(got.stdout.decode().rstrip("\n"))
    tally.check(
        got.status == 0 and not got.stderr and clone.archive.parent == clone.into, f"package.sh: {described(got)}"
    )
    if not clone.archive.is_file():
        tally.finish()


def unpacked(archive: Path, folder: Path) -> Path:
    with tarfile.open(archive) as opened:
        opened.extractall(folder)
    return folder / archive.name.removesuffix(".tar.gz")


def files_below(folder: Path) -> dict[str, bytes]:
    return {str(path.relative_to(folder)): path.read_bytes() for path in folder.rglob("*") if path.is_file()}


def files(tally: Tally, clone: Clone) -> None:
    """its files, with the sums in MANIFEST, and whose they are"""
    folder = unpacked(clone.archive, clone.folder.with_name("files"))
    there = files_below(folder)
    lines = there.pop("MANIFEST").decode().splitlines()
    wanted = {f"bin/{name}": built(name).read_bytes() for name in PROGRAMS}
    wanted |= {name: data for name, data in files_below(clone.folder).items() if name.split("/")[0] in PACKED}
    wanted |= generated(folder.with_name("generated")) | {"rust/Cargo.lock": b"lock\n"}
    tally.check(there == wanted, f"the archive has other files: {there.keys() ^ wanted.keys()}")
    sums = [f"{sha256(data).hexdigest()}  {name}" for name, data in sorted(there.items())]
    tally.check([line for line in lines if not line.startswith("# ")] == sums, "MANIFEST has the sum of each file")
    tally.same(
        "sha256sum", run(["sha256sum", "--check", "--strict", "--quiet", "MANIFEST"], cwd=folder), Outcome(0, b"", b"")
    )
    with tarfile.open(clone.archive) as opened:
        members = opened.getmembers()
    tally.check(
        {(it.uid, it.gid, it.mtime) for it in members} == {(0, 0, TIME)}, "each file is root's, of the commit's time"
    )
    tally.check({it.mode for it in members} == {0o755, 0o644}, "each file can be read by all")
    paths = [it.name.split("/") for it in members]
    tally.check(paths == sorted(paths), "files stand in the order of their names")


def generated(folder: Path) -> dict[str, bytes]:
    """The pages that scripts make of programs and sources."""
    manual = folder / "share" / "man" / "man1"
    manual.mkdir(parents=True)
    run([sys.executable, "-B", DOCUMENTS / "man_pages.py", manual, *map(built, PROGRAMS)])
    run([sys.executable, "-B", DOCUMENTS / "api.py", folder / "docs" / "api"])
    return files_below(folder)


def programs(tally: Tally, clone: Clone) -> None:
    """its programs, run with no environment, as `rt ci` runs them"""
    folder = unpacked(clone.archive, clone.folder.with_name("programs"))
    empty = clone.folder.with_name("empty")
    empty.mkdir()
    first = [(folder / "examples" / f"first_example.{ending}").read_bytes() for ending in ("csv", "replies")]
    tally.same(
        "the first example", run([folder / "bin" / PROGRAMS[0]], first[0], env={}, cwd=empty), Outcome(0, first[1], b"")
    )
    for name in PROGRAMS:
        crate = CRATES / name
        args, given, wrote = (
            (crate / part).read_bytes() if (crate / part).exists() else b"" for part in ("args", "stdin", "stdout")
        )
        got = run(
            [folder / "bin" / name, *args.decode().splitlines()],
            given,
            env={},
            cwd=crate / "data" if (crate / "data").exists() else empty,
        )
        tally.same(name, got, Outcome(0, wrote, b""))


def same_bytes(tally: Tally, clone: Clone) -> None:
    """a second archive, made elsewhere, of the same bytes"""
    got = clone.package("again", cwd=clone.into, umask=0o077, env=ELSEWHERE)
    again = clone.into / "again" / clone.archive.name
    tally.check(
        got.status == 0 and again.read_bytes() == clone.archive.read_bytes(), f"a second archive: {described(got)}"
    )


def manifests(tally: Tally, clone: Clone) -> None:
    """what MANIFEST tells of the commit, and with a log of what was proved"""
    with_log, with_kept = clone.into / "with_log", clone.into / "with_kept"
    for folder, altered in ((with_log, ()), (with_kept, KEPT)):
        got = clone.package("--log", clone.log(*altered), folder)
        tally.check(got.status == 0 and not got.stderr, f"package.sh --log: {described(got)}")
    for archive, told in (
        (clone.archive, "gate: not told, since no log was given\n"),
        (with_log / clone.archive.name, TOLD),
        (with_kept / clone.archive.name, TOLD_OF_KEPT),
    ):
        folder = unpacked(archive, archive.with_name("unpacked"))
        lines = [
            line.removeprefix("# ") for line in (folder / "MANIFEST").read_text().splitlines() if line.startswith("# ")
        ]
        tally.check(told in "\n".join(lines), f"MANIFEST tells {told!r}: {lines}")
        facts = dict(line.split(": ", 1) for line in lines)
        tally.check((facts["commit"], facts["committed"]) == (clone.git("rev-parse", "HEAD"), AT), f"commit in {facts}")
        tally.check(folder.name == f"fundreivo-{facts['version']}-x86_64-linux", f"version in {facts}")
        tally.check(
            facts["programs need"].startswith("Linux on x86-64, libc.so.6 of glibc 2."), f"libraries in {facts}"
        )


def workspace(tally: Tally, clone: Clone) -> None:
    """the crates as ordinary Rust, as rust/export.py writes them, which cargo takes in the versions of Cargo.lock"""
    shutil.rmtree(clone.folder / "rust")
    clone.copy("rust")
    clone.git("add", "-A")
    clone.git("commit", "-q", "-m", "Rust")
    got = clone.package(clone.into / "rust")
    if b"SKIPPED" in got.stderr:
        tally.skip("the crates as ordinary Rust", got.stderr.decode().strip())
        return
    folder = unpacked(Path(got.stdout.decode().rstrip("\n")), clone.folder.with_name("rust")) / "rust"
    wanted = clone.folder.with_name("exported")
    run([sys.executable, "-B", ROOT / "rust" / "export.py", wanted])
    there = files_below(folder)
    there.pop("Cargo.lock")
    tally.check(there == files_below(wanted), f"rust/ has other files: {there.keys() ^ files_below(wanted).keys()}")
    crates = os.environ.get("CRATES", "/usr/share/cargo/registry")
    debian = ["--config", "debian.toml", "--config", f'source.debian.directory="{crates}"']
    command = ["cargo", "metadata", "--locked", "--offline", "--format-version", "1"]
    outcomes = [run([*command, *words], cwd=folder) for words in ([], debian)]
    tally.check(any(got.status == 0 and b'"name":"fundreivo"' in got.stdout for got in outcomes), f"cargo: {outcomes}")


def without_crates(tally: Tally, clone: Clone) -> None:
    """an archive without ordinary Rust, if cargo does not find the crates of others"""
    (clone.folder / "rust" / "build").write_text(LACKS)
    clone.git("commit", "-q", "-a", "-m", "None")
    got = clone.package(clone.into / "less")
    wanted = "tests/package.sh: SKIPPED the crates as ordinary Rust: error: no package named `anyhow`\n"
    tally.check((got.status, got.stderr.decode()) == (0, wanted), f"package.sh without crates: {described(got)}")
    folder = unpacked(Path(got.stdout.decode().rstrip("\n")), clone.folder.with_name("less"))
    tally.check((folder / "MANIFEST").exists() and not (folder / "rust").exists(), "an archive without rust/")


def logs(tally: Tally, clone: Clone) -> None:
    """logs that are not of its programs, each refused in one line"""
    not_of_it, not_well = "is not of this commit", "does not end with all proved and nothing failed"
    altered = (
        (not_of_it, clone.git("rev-parse", "HEAD"), "0" * 40),
        (not_of_it, "no changes", "changes"),
        (not_well, "rt: ok", "rt: FAILED"),
        (not_well, "1007 passed, 0", "1007 passed, 1"),
        (not_well, "1007 passed, 0 failed\n", "== tests/joined.py\n"),
        *((f"is not of this crates/{name}/out/{name}", sum_of(name), "0" * 64) for name in PROGRAMS),
    )
    for why, old, new in altered:
        refused(tally, clone, why, "--log", clone.log(old, new), clone.into)
    refused(tally, clone, "there is no log /none", "--log", "/none", clone.into)


def states(tally: Tally, clone: Clone) -> None:
    """trees and programs that do not agree, each refused in one line"""
    name = PROGRAMS[1]
    readme, program, wrote = (
        clone.folder / path for path in ("README.md", f"crates/{name}/out/{name}", f"crates/{name}/out/stdout")
    )
    altered = (
        ("the tree has changes", lambda: readme.write_text("")),
        ("the tree has changes", (clone.folder / "more").touch),
        (f"there is no crates/{name}/out/{name}", program.unlink),
        ("is not as `rt ci` builds and runs it", wrote.unlink),
        ("is not as `rt ci` builds and runs it", lambda: wrote.write_text("other\n")),
        ("is not as `rt ci` builds and runs it", lambda: os.utime(wrote, (TIME, TIME))),
        (f"is newer than crates/{name}/out/{name}", lambda: os.utime(program, (TIME, TIME))),
    )
    for why, alter in altered:
        alter()
        refused(tally, clone, why, clone.into)
        clone.git("stash", "-q", "-u")
        clone.build()
    for words in (["--log"], ["--other"], ["one", "two"]):
        refused(tally, clone, "there is no log" if words == ["--log"] else "it takes [--log FILE] [FOLDER]", *words)


def refused(tally: Tally, clone: Clone, why: str, *words: str | Path) -> None:
    """package.sh says in one line why it makes nothing."""
    shutil.rmtree(clone.into, ignore_errors=True)
    got = clone.package(*words)
    said = got.stderr.decode()
    in_a_line = said.startswith("tests/package.sh: ") and why in said and said.count("\n") == 1
    tally.check(
        got.status == 1 and not got.stdout and in_a_line and not clone.into.exists(),
        f"package.sh {words} says that {why}: {described(got)}",
    )


def main() -> None:
    tally = Tally()
    if shutil.which("git") is None:
        tally.skip("packages", "there is no `git` on the path")
        tally.finish()
    with tempfile.TemporaryDirectory() as folder:
        clone = Clone(Path(folder) / "clone")
        for check in (make_archive, files, programs, same_bytes, manifests, workspace, without_crates, logs, states):
            tally.tell(check, tally, clone)
    tally.finish()


if __name__ == "__main__":
    main()
