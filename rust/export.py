#!/usr/bin/env python3
"""Writes the crates of this repository as ordinary Rust: the same text, without contracts and ghost code.

    rust/export.py [OUT]        a Cargo workspace in OUT, or else in rust/out

What the sources call `std` is there the crate `kit`, Rust's library with Rattle's signatures; crates of Rattle whose
calls differ from those of Rust's crates stand in `shims`. A contract of a public function is kept in its docs. What
this script does not know is an error that names file and line; what it does not see, rustc does.
"""

import re
import shutil
import subprocess
import sys
import tempfile
from pathlib import Path
from typing import NamedTuple, NoReturn

HERE = Path(__file__).resolve().parent
ROOT = HERE.parent
# Crates that are written in Rust, beside this script.
OWN = ("kit", "fundreivo", "fundreivo_c")
ATTRIBUTES = set("cfg cold derive error inline must_use test".split())
# Those of proofs, and bounds of a generic error, which Rust's `thiserror` finds by itself.
LEFT_OUT = {"cycle", "error_bound", "tactic"}
MACROS = set(
    "assert assert_eq bail ensure eprint eprintln format matches panic print println prove unreachable value_parser vec"
    " write writeln".split()
)
# Words of Rattle that Rust does not have, and words of Rust that the sources do without.
STRANGE_WORDS = set("ghost requires ensures lemma macro_rules union unsafe".split())
MARKS = set("!#$%&()*+,-./:;<=>?@[]^_{|}~")
# What Rust writes otherwise.
REWRITINGS = (
    # Rust's core has no such function.
    (r"(?<![:\w])core::mem::replace_with", "std::mem::replace_with"),
    # Rust's formatter is of no type of writer, and its `clone` gives no error.
    (r"fn fmt<W: (?:fmt::)?Write>\(&self, f: &mut (?:fmt::)?Formatter<W>\)",
     "fn fmt(&self, f: &mut std::fmt::Formatter<'_>)"),
    (r"fn clone\(&self\) -> Result<(.*), AllocError> \{\s*Ok\(\*self\)", r"fn clone(&self) -> \1 { *self"),
    # Rust has functions of these names with other parameters.
    (r"\.(expect|expect_err)\((&?rt|self\.rt),", r".\1_rt(\2,"),
    (r"(\bFile::open|\bfs::(?:symlink_)?metadata|\.open)\((?:rt|self\.files), ", r"\1("),
    (r"\.(to_owned|collect|lines)\(alloc\)", r".\1_in(alloc)"),
    (r"\.(read_until|read_to_string)\(", r".\1_in("),
    # A module within a file does not see what the file imports.
    (r"(?m)^((?:pub )?mod \w+ \{)", r"\1\n#[allow(unused_imports)]\nuse kit::prelude::*;\n"),
    # Neither a test nor `main` is passed the runtime; the kit writes the beginning of a program.
    (r"(#\[test\]\s*(?:#\[[^\]]*\]\s*)*fn \w+)\((\w+): HostRuntime\)([^{]*)\{", r"\1()\3{ let \2 = HostRuntime;"),
    (r"(?m)^fn main\((\w+): HostRuntime\)",
     r"#[cfg(not(test))]\nstd::begin!(begin);\n\n#[cfg_attr(test, expect(dead_code))]\nfn begin(\1: HostRuntime)"),
)
# A drop that only lets the fields go, as Rust does unasked; `finish` of a permit packs its fields anew.
IDLE_DROP = re.compile(
    r"\{\s*fn drop\(self\) \{\s*(let (Self|\w+) (\{[^}]*\}|\([^)]*\)) = self;\s*)?"
    r"(drop\(\w+(\.finish\(\))?\);\s*)*\}\s*\}"
)
TOKEN = re.compile(
    r"(?P<space>\s+)|(?P<comment>//[^\n]*|/\*.*?\*/)"
    r"|(?P<literal>b?r(?P<hashes>#*)\".*?\"(?P=hashes)|b?\"(?:[^\"\\]|\\.)*\""
    r"|b?'(?:[^'\\\n]|\\(?:x..|u\{[0-9a-fA-F]+\}|.))')"
    r"|(?P<word>'?[^\W\d]\w*|\d(?:\w|\.(?=\d))*)|(?P<mark>.)",
    re.S,
)


class Token(NamedTuple):
    kind: str
    text: str
    line: int


def tokens_of(text: str) -> list[Token]:
    found, line = [], 1
    for piece in TOKEN.finditer(text):
        found.append(Token(next(kind for kind in TOKEN.groupindex if piece[kind] is not None), piece[0], line))
        line += piece[0].count("\n")
    return found


class Source:
    """A text of Rattle, and what is written of it so far."""

    def __init__(self, path: Path) -> None:
        self.path, self.text = path, path.read_text("utf-8")
        self.tokens = tokens_of(self.text) + [Token("space", "", self.text.count("\n"))]
        self.out: list[str] = []
        # Where the public trait ends in which this is, if in one.
        self.trait_end = 0
        # Where docs of the public function go whose head is read, and the clauses of the head.
        self.docs_at: int | None = None
        self.clauses: list[str] = []

    def refuse(self, at: int, why: str) -> NoReturn:
        sys.exit(f"{self.path.relative_to(ROOT)}:{self.tokens[at].line}: {why}")

    def past_space(self, at: int) -> int:
        while at < len(self.tokens) - 1 and self.tokens[at].kind in ("space", "comment"):
            at += 1
        return at

    def past_group(self, at: int) -> int:
        """The place past the brackets that open at a place."""
        depth = 0
        for place in range(at, len(self.tokens)):
            kind, text, _ = self.tokens[place]
            if kind == "mark":
                depth += (text in "{([") - (text in "})]")
            if depth == 0:
                return place + 1
        self.refuse(at, "brackets that are not closed")

    def code_up_to(self, at: int, marks: str) -> tuple[str, int]:
        """The code from a place up to the first of some marks, and where that is."""
        first = at
        while at < len(self.tokens) - 1 and self.tokens[at].text not in tuple(marks):
            at += 1
        return self.code(first, at), at

    def code(self, first: int, end: int) -> str:
        return "".join(token.text for token in self.tokens[first:end] if token.kind != "comment")

    def head(self, with_docs: bool = False) -> int:
        """Where in what is written the item begins whose keyword comes next: at its attributes, or its docs."""
        at = first = len(self.out)
        while at:
            text = self.out[at - 1]
            is_doc = text.startswith("//") and not text.startswith("//!")
            if text.isspace() and text.count("\n") < 2:
                at -= 1
            elif text in ("pub", "(", "crate", ")", "const", "") or text.startswith("#[") or with_docs and is_doc:
                at = first = at - 1
            else:
                break
        return first

    def is_public(self) -> bool:
        head = self.out[self.head() :]
        return "pub" in head and "crate" not in head

    def step(self, at: int) -> int:
        """Writes what stands at a place, and answers the next."""
        kind, text, _ = self.tokens[at]
        if kind == "word":
            match text:
                case "ghost":
                    return self.leave_ghost(at)
                case "requires" | "ensures" if end := self.clause_end(at):
                    return self.take_clause(at, end)
                case "impl" if end := self.drop_end(at):
                    del self.out[self.head(with_docs=True) :]
                    return end
                case "trait":
                    return self.write_trait(at)
                case "struct" | "enum":
                    self.mark_must_use(at)
                case "fn" if self.tokens[self.past_space(at + 1)].kind == "word":
                    self.docs_at = self.head() if at < self.trait_end or self.is_public() else None
                    self.clauses = []
            self.check_word(at)
        elif text == "#":
            return self.write_attribute(at)
        elif kind == "mark" and text in "{;":
            self.write_clauses()
        if kind == "mark" and text not in MARKS:
            self.refuse(at, f"`{text}` is no mark of Rust")
        self.out.append(text)
        return at + 1

    def check_word(self, at: int) -> None:
        text = self.tokens[at].text
        if text in STRANGE_WORDS:
            self.refuse(at, f"`{text}` cannot be exported here")
        if self.tokens[at + 1].text == "!" and self.tokens[at + 2].text in tuple("([{") and text not in MACROS:
            self.refuse(at, f"`{text}!` is not known")

    def leave_ghost(self, at: int) -> int:
        """Leaves a ghost item out, with its docs."""
        del self.out[self.head(with_docs=True) :]
        end = at
        while self.tokens[end].text not in tuple(";,})]"):
            if end == len(self.tokens) - 1:
                self.refuse(at, "a ghost item that does not end")
            end = self.past_group(end) if self.tokens[end].text in tuple("{([") else end + 1
        end += self.tokens[end].text in tuple(";,")
        # One break of a line is left of those around it.
        while self.out and self.out[-1].isspace() and self.tokens[end].kind == "space":
            self.out.pop()
        return end

    def clause_end(self, at: int) -> int | None:
        """The place past the clause at a place, if it is one."""
        end = self.past_space(at + 1)
        for is_part in (self.tokens[end].text == "*", True):
            if is_part and not self.tokens[end].text == "{":
                end = self.past_space(end + 1)
        return self.past_group(end) if self.tokens[end].text == "{" else None

    def take_clause(self, at: int, end: int) -> int:
        first, *rest = "".join(token.text for token in self.tokens[at:end]).split("\n")
        least = min((len(line) - len(line.lstrip()) for line in rest), default=0)
        self.clauses += [first, *("    " + line[least:] for line in rest)]
        while self.out[-1].isspace():
            self.out.pop()
        end = self.past_space(end)
        self.out.append("" if self.tokens[end].text == ";" else " ")
        return end

    def write_clauses(self) -> None:
        """Puts the clauses of a public function's head into its docs."""
        if self.docs_at is not None and self.clauses:
            has_docs = "".join(self.out[: self.docs_at]).rstrip().rpartition("\n")[2].lstrip().startswith("///")
            lines = [*[""] * has_docs, "# Contract", "", "```text", *self.clauses, "```"]
            self.out.insert(self.docs_at, "".join(f"/// {line}".rstrip() + "\n" for line in lines))
        self.docs_at, self.clauses = None, []

    def write_attribute(self, at: int) -> int:
        """Writes an attribute, unless it is left out; of a derive what Rust has."""
        first = at + 1 + (self.tokens[at + 1].text == "!")
        end = self.past_group(first)
        name = self.tokens[first + 1].text
        if name in LEFT_OUT:
            return self.past_space(end)
        if name not in ATTRIBUTES:
            self.refuse(at, f"the attribute `{name}` is not known")
        text = self.code(at, end)
        if name == "derive":
            names = text[text.index("(") + 1 : text.index(")")].replace(",", " ").split()
            # An error that is copied and never compared holds an `io::Error`, which Rust does not copy.
            is_moved = "Error" in names and "PartialEq" not in names
            left_out = {"Drop"} | ({"Clone", "Copy"} if is_moved else set())
            names = [name for name in names if name not in left_out]
            text = f"#[derive({', '.join(names)})]" if names else ""
        self.out.append(text)
        return end if text else self.past_space(end)

    def drop_end(self, at: int) -> int | None:
        """The place past an `impl Drop`, if one stands here: it has to do no more than Rust does unasked."""
        words, body = self.code_up_to(at, "{;")
        if not re.search(r"\bDrop\s+for\b", words):
            return None
        end = self.past_group(body)
        if not IDLE_DROP.fullmatch(self.code(body, end)):
            self.refuse(at, "a drop that does more than to let fields go")
        return end

    def mark_must_use(self, at: int) -> None:
        """Marks a public type that Rattle neither drops nor copies: Rust warns at least if it is not used at all."""
        name = self.tokens[self.past_space(at + 1)].text
        _, body = self.code_up_to(at, "{;(")
        derived = re.search(rf"((?:#\[[^\n]*\]\s*)*)pub (?:struct|enum) {name}\b", self.text)
        is_let_go = re.search(rf"\b(?:Drop|Copy) for {name}\b", self.text)
        is_let_go = is_let_go or derived and re.search(r"\b(?:Drop|Copy)\b", derived[1])
        if self.is_public() and self.tokens[body].text == "{" and not is_let_go:
            self.out.insert(self.head(), "#[must_use]\n")

    def write_trait(self, at: int) -> int:
        """Writes a trait's name: each trait of Rattle is of sized types."""
        words, end = self.code_up_to(at, ":{")
        if "where" in words:
            self.refuse(at, "a trait with `where` and no bounds")
        if self.is_public():
            self.trait_end = self.past_group(self.code_up_to(end, "{")[1])
        has_bounds = self.tokens[end].text == ":"
        self.out.append(words.rstrip() + (": Sized + " if has_bounds else ": Sized "))
        return end + has_bounds

    def as_rust(self, is_root: bool) -> str:
        at = 0
        while at < len(self.tokens):
            at = self.step(at)
        text = "".join(self.out)
        for form, rust in REWRITINGS:
            text = re.sub(form, rust, text)
        added = ["#[macro_use]", "extern crate kit as std;", ""] if is_root else []
        if "std::begin!" in text:
            added.insert(0, "#![cfg_attr(not(test), no_main)]")
        docs = re.match(r"(?://![^\n]*\n)*", text)[0]
        prelude = ["#[allow(unused_imports)]", "use kit::prelude::*;", ""]
        return re.sub(r"\n{3,}", "\n\n", "\n".join([docs, *added, *prelude, text[len(docs) :]]))


def crates_of(path: Path, known: set[str]) -> dict[str, list[str]]:
    """The crates that crates.txt lists, with those that each stands on. Rust's own `core` is always there."""
    found, lines = {}, {}
    for number, line in enumerate(path.read_text().splitlines(), 1):
        name, colon, rest = line.partition("#")[0].partition(":")
        if colon:
            found[name.strip()] = [need for need in rest.split() if need != "core"]
            lines[name.strip()] = number
    for name, needs in found.items():
        for need in needs:
            if need not in found and need not in known:
                sys.exit(f"{path.name}:{lines[name]}: nothing in rust/ stands for `{need}`")
    return found


def write(path: Path, text: str) -> None:
    path.parent.mkdir(parents=True, exist_ok=True)
    path.write_text(text, "utf-8")


def manifest(name: str, text: str, needs: list[str], library: list[str]) -> str:
    """The Cargo.toml of a crate, described by the first sentence of its docs."""
    docs = " ".join(line[4:].strip() for line in text.splitlines() if line.startswith("//! "))
    about = re.split(r"\.(?: |$)", docs)[0].replace("`", "").replace('"', "'")
    lines = ["[package]", f'name = "{name}"', f'description = "{about}"', "publish = false"]
    lines += [f"{key}.workspace = true" for key in ("version", "edition", "rust-version", "license")]
    if library:
        lines += ["", "[lib]", *library]
    return "\n".join([*lines, "", "[dependencies]", *needs, "", "[lints]", "workspace = true", ""])


def export_crate(crate: Path, name: str, needs: list[str]) -> None:
    source = ROOT / "crates" / name / "src"
    root = next(path for path in (source / "lib.rt", source / "main.rt") if path.exists())
    has_tests = False
    for path in sorted(source.rglob("*.rt")):
        text = Source(path).as_rust(path == root)
        has_tests |= "#[test]" in text
        write((crate / "src" / path.relative_to(source)).with_suffix(".rs"), text)
    lines = [f"{need}.workspace = true" for need in ["kit", *needs]]
    # Cargo would build each library once more for tests that it does not have.
    library = ["doctest = false", *["test = false"] * (not has_tests)] if root.stem == "lib" else []
    write(crate / "Cargo.toml", manifest(name, root.read_text("utf-8"), lines, library))


def export(new: Path) -> int:
    """Writes the whole workspace, and answers how many crates of the repository it has."""
    head = (HERE / "workspace.toml").read_text()
    shims = {path.stem: path.read_text("utf-8") for path in sorted((HERE / "shims").glob("*.rs"))}
    others = set(re.findall(r"(?m)^(\w+) = ", head.partition("[workspace.dependencies]")[2]))
    crates = crates_of(ROOT / "crates.txt", set(shims) | others)
    for name, needs in crates.items():
        export_crate(new / "crates" / name, name, needs)
    if shutil.which("rustfmt"):
        plain = ["rustfmt", "--edition", "2024", "--config", "max_width=100,use_small_heuristics=Default"]
        # It may have no toolchain. Where it does not take what was written, rustc says why.
        subprocess.run([*plain, *new.rglob("*.rs")], capture_output=True)
    for name in OWN:
        shutil.copytree(HERE / name, new / name, ignore=shutil.ignore_patterns("__pycache__"))
    paths = [f'{name} = {{ path = "{name}" }}' for name in OWN]
    paths += [f'{name} = {{ path = "crates/{name}" }}' for name in crates]
    for name, text in shims.items():
        package = f"fundreivo-shim-{name.replace('_', '-')}"
        write(new / "shims" / name / "src/lib.rs", text)
        # A shim says in a line of its own what it stands on.
        needs = [f"{need}.workspace = true" for need in ["kit", *re.findall(r"(?m)^//# (\S+)$", text)]]
        library = [f'name = "{name}"', "doctest = false", "test = false"]
        write(new / "shims" / name / "Cargo.toml", manifest(package, text, needs, library))
        paths.append(f'{name} = {{ package = "{package}", path = "shims/{name}" }}')
    version = re.search(r'VERSION: &str = "(.*)"', (ROOT / "crates/program_options/src/options.rt").read_text())
    write(new / "Cargo.toml", head.replace("VERSION", version[1]) + "\n".join([*paths, ""]))
    for path in (ROOT / "LICENSE", HERE / "debian.toml"):
        shutil.copy(path, new)
    return len(crates)


def replace_changed(new: Path, old: Path) -> None:
    """Makes a folder as another, and touches no file that is so already: cargo builds only what changed."""
    for path in sorted(old.glob("[!t.]*/**/*"), reverse=True):
        if not (new / path.relative_to(old)).exists():
            path.rmdir() if path.is_dir() else path.unlink()
    for path in new.rglob("*"):
        place = old / path.relative_to(new)
        if path.is_file() and not (place.exists() and place.read_bytes() == path.read_bytes()):
            place.parent.mkdir(parents=True, exist_ok=True)
            shutil.copyfile(path, place)


def main(out: Path) -> None:
    out.mkdir(parents=True, exist_ok=True)
    with tempfile.TemporaryDirectory() as room:
        count = export(Path(room))
        replace_changed(Path(room), out)
    print(f"{count} crates as ordinary Rust in {out}")


if __name__ == "__main__":
    if len(sys.argv) > 2 or "".join(sys.argv[1:2]).startswith("-"):
        sys.exit(__doc__)
    main(Path(sys.argv[1] if len(sys.argv) == 2 else HERE / "out").resolve())
