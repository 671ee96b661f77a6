#!/usr/bin/env python3
"""Lists what the libraries of crates.txt declare, from their sources alone, so no comment is written twice.

    docs/api.py            writes docs/API.md: each crate with its public names and definitions, by file
    docs/api.py FOLDER     writes a page for each crate: its public items with their comments and contracts, and the
                           definitions that contracts name, with their comments
    docs/api.py --check    writes nothing: whether docs/API.md is what the sources make of it

Nothing is built."""

import re
import sys
from pathlib import Path
from typing import Iterable, Iterator, NamedTuple

ROOT = Path(__file__).resolve().parent.parent

sys.path.append(str(ROOT / "examples"))
from command_line import end, parser_of

API = ROOT / "docs" / "API.md"

# Nobody calls these.
LEFT_OUT = ("examples and tests",)
CRATE = re.compile(r"(\w+): ?(.*)")
EXPORT = re.compile(r"(?s)^pub use ([\w:]+?)(?:::\{([^}]*)\})?;", re.M)
DECLARED = re.compile(r"(?:const )?(fn|struct|enum|trait|type|const|ghost) (?!use\b)(\w+)")
IMPL = re.compile(r"impl(?:<.*?>)? (?!.* for )(\w+)")
DEFINITION = re.compile(r"(?:(?:abbrev|unfoldable|data) pub|pub (?:record|data)) (\S+)|pub (\S+) :")
FIELD = re.compile(r"  pub (\S+) :")
CLAUSES = ("requires", "ensures")


class Item(NamedTuple):
    """A declaration: the type or trait that it belongs to, its name, the comment above it, and its lines without a
    body."""

    owner: str
    name: str
    text: list[str]
    code: list[str]

    @property
    def title(self) -> str:
        return f"{self.owner}::{self.name}" if self.owner else self.name


class Definition(NamedTuple):
    name: str
    text: str
    fields: list[tuple[str, str]]


class Crate(NamedTuple):
    name: str
    kind: str
    uses: list[str]

    @property
    def folder(self) -> Path:
        return ROOT / "crates" / self.name

    @property
    def root(self) -> Path:
        return next(path for path in (self.folder / "src" / name for name in ("lib.rt", "main.rt")) if path.exists())


def all_crates() -> Iterator[Crate]:
    kind = ""
    for line in (ROOT / "crates.txt").read_text().splitlines():
        if line.startswith("# "):
            kind = line[2:]
        elif found := CRATE.fullmatch(line):
            yield Crate(found[1], kind, found[2].split())


# What callers have
def items(path: Path) -> Iterator[Item]:
    """What a file declares for callers: methods are their type's or their trait's."""
    text, owner, is_trait = [], "", False
    lines = iter(path.read_text().splitlines())
    for line in lines:
        word = line.strip()
        if word.startswith("///"):
            text.append(word[3:].strip())
            continue
        found = DECLARED.match(word.removeprefix("pub "))
        if found and (word.startswith("pub ") or is_trait and line.startswith("    ")):
            own = owner if line.startswith(" ") else ""
            yield Item(own, found[2], text, declaration(word, found[1], lines))
        if line and not line.startswith((" ", "}", "#")):
            is_trait = word.startswith("pub trait ")
            owner = found[2] if found and is_trait else impl[1] if (impl := IMPL.match(word)) else ""
        if not word.startswith("#"):
            text = []


def declaration(line: str, kind: str, lines: Iterator[str]) -> list[str]:
    """The lines of a declaration from its first one on: of a function its contract too, of a type what is public."""
    if kind == "fn":
        return head_of_function(line, lines)
    if kind in ("struct", "enum") and line.endswith("{"):
        members = [line]
        for member in lines:
            if member.startswith("}"):
                break
            members.append(member)
        return shown_members(members, kind)
    whole = [line]
    while kind in ("type", "const", "ghost") and not whole[-1].endswith(";"):
        whole.append(next(lines))
    return [*whole[:-1], whole[-1].removesuffix(" {").rstrip(";")]


def head_of_function(line: str, lines: Iterator[str]) -> list[str]:
    head, has_clauses = [], False
    while True:
        word = line.strip()
        has_clauses |= word.startswith(CLAUSES)
        if word in ("{", "{}"):
            return head
        if not has_clauses and re.search(r" \{(.*\})?$", word):
            return [*head, re.sub(r" \{(.*\})?$", "", line)]
        head.append(line)
        if word.endswith(";"):
            return [*head[:-1], line.rstrip(";")]
        line = next(lines)


def shown_members(lines: list[str], kind: str) -> list[str]:
    """A type without its private fields; if it has no other, its head."""
    shown, above = [], []
    for line in lines[1:]:
        if line.strip().startswith(("///", "#")):
            above.append(line)
        elif kind == "enum" or line.startswith("    pub ") and "pub(" not in line:
            shown += [*(note for note in above if "///" in note), line]
            above = []
        else:
            above = []
    return [lines[0], *shown, "}"] if shown else [lines[0].removesuffix(" {")]


def exports(crate: Crate) -> tuple[set[str], dict[str, list[str]]]:
    """The names that a crate makes public of its modules, and those of other crates."""
    own, others = set(), {}
    for path, names in EXPORT.findall(crate.root.read_text()):
        source, names = (path, names) if names else path.rpartition("::")[::2]
        listed = re.findall(r"\w+", re.sub(r"\w+ as ", "", names))
        if (ROOT / "crates" / source.partition("::")[0]).exists():
            others.setdefault(source.partition("::")[0], []).extend(listed)
        else:
            own |= set(listed)
    return own, others


def public(crate: Crate) -> dict[Path, list[Item]]:
    """What is public of a crate, by file."""
    names, _ = exports(crate)
    names |= {item.name for item in items(crate.root) if not item.owner}
    open_modules = set(re.findall(r"(?m)^pub mod (\w+);", crate.root.read_text()))
    found = {}
    for path in sorted((crate.folder / "src").rglob("*.rt")):
        is_open = path.stem in open_modules
        found[path] = [item for item in items(path) if is_open or (item.owner or item.name) in names]
    return {path: own for path, own in found.items() if own}


# What contracts name
def definitions(path: Path) -> Iterator[Definition]:
    """The definitions of a file, with their comments and those of their fields."""
    text, of_field, last = [], [], None
    for line in without_modules(path.read_text()):
        if line.startswith("-- "):
            text.append(line[3:])
        elif found := DEFINITION.match(line):
            if last:
                yield last
            last, text = Definition(found[1] or found[2], " ".join(text), []), []
        elif line.startswith("  -- "):
            of_field.append(line[5:])
        elif last and (found := FIELD.match(line)):
            if of_field:
                last.fields.append((found[1], " ".join(of_field)))
            of_field = []
        else:
            text, of_field = [], []
    if last:
        yield last


def without_modules(text: str) -> Iterator[str]:
    """The lines of a file; those of a module inside it begin where others do."""
    is_inside = False
    for line in text.splitlines():
        is_inside = line.startswith("module ") or is_inside and not re.match(r"\S", line)
        yield line.removeprefix("  ") if is_inside else line


def named(crate: Crate) -> dict[Path, list[Definition]]:
    """The definitions of a crate that its callers' contracts may name, by file."""
    found = {path: list(definitions(path)) for path in sorted((crate.folder / "specs").glob("*.antt"))}
    return {path: own for path, own in found.items() if own}


def opening_comment(path: Path, mark: str) -> str:
    """The comment with which a file begins, as Markdown."""
    found = re.match(rf"(?:{mark}.*\n)*", path.read_text())[0]
    return markdown(line.removeprefix(mark).strip() for line in found.splitlines())


def markdown(lines: Iterable[str]) -> str:
    """The lines of a comment: a blank one ends a paragraph, and items of a list stay apart."""
    paragraphs = re.split(r"\n\n+", "\n".join(lines).strip())
    return "\n\n".join(re.sub(r"\n(?![*-] )", " ", paragraph) for paragraph in paragraphs)


def first_sentence(text: str) -> str:
    return re.match(r"(?s).*?[.:](?=\s|$)|.*", text)[0].rstrip(":.") + "."


# The list of all crates
def listed(crate: Crate) -> Iterator[str]:
    yield f"### {crate.name}\n"
    yield first_sentence(opening_comment(crate.root, "//!")) + "\n"
    names = {path: [item.title for item in found] for path, found in public(crate).items()}
    names |= {path: [one.name for one in found] for path, found in named(crate).items()}
    if names:
        yield "\n".join(f"- {linked(crate, path)}: {in_code(found)}" for path, found in names.items()) + "\n"


def linked(crate: Crate, path: Path) -> str:
    return f"[{path.relative_to(crate.folder)}](../{path.relative_to(ROOT)})"


def in_code(names: Iterable[str]) -> str:
    return ", ".join(f"`{name}`" for name in dict.fromkeys(names))


def list_of_all() -> str:
    crates, lines = libraries(), [HEAD]
    for kind in dict.fromkeys(crate.kind for crate in crates):
        lines.append(f"## {kind[0].upper()}{kind[1:]}\n")
        lines += [line for crate in crates if crate.kind == kind for line in listed(crate)]
    return "\n".join(lines).rstrip("\n") + "\n"


HEAD = """# The libraries

`docs/api.py` makes this list from the sources: each crate's public names, and the definitions that its contracts name.
Comments and contracts stand beside the declarations; this gathers them, one page a crate:

    docs/api.py out/api
"""


# A page of one crate
def page(crate: Crate, known: set[str]) -> str:
    lines = [f"# {crate.name}\n", opening_comment(crate.root, "//!") + "\n"]
    if used := [f"[{name}]({name}.md)" for name in crate.uses if name in known]:
        lines.append(f"It uses {', '.join(used)}.\n")
    for source, names in exports(crate)[1].items():
        lines.append(f"It exports {in_code(names)} of [{source}]({source}.md).\n")
    lines += [text for found in public(crate).values() for item in found for text in of_item(item)]
    for path, found in named(crate).items():
        lines.append(f"## specs/{path.name}\n\n{opening_comment(path, '--')}\n")
        lines += [*(text for one in found for text in of_definition(one)), ""]
    return "\n".join(lines).rstrip("\n") + "\n"


def of_item(item: Item) -> Iterator[str]:
    yield f"## {item.title}\n"
    if item.text:
        yield markdown(item.text) + "\n"
    indented = " " * 4 if item.owner else ""
    yield "\n".join(["```rust", *(line.removeprefix(indented) for line in item.code), "```\n"])


def of_definition(one: Definition) -> Iterator[str]:
    yield f"- `{one.name}`" + (f": {one.text}" if one.text else "")
    yield from (f"  - `{name}`: {text}" for name, text in one.fields)


def libraries() -> list[Crate]:
    return [crate for crate in all_crates() if crate.kind not in LEFT_OUT]


def main() -> int:
    words = parser_of(__doc__)
    words.add_argument("folder", metavar="FOLDER", type=Path, nargs="?", help="where the pages of crates are written")
    words.add_argument("--check", action="store_true", help="whether docs/API.md is up to date")
    asked = words.parse_args()
    if asked.check:
        return 0 if API.read_text() == list_of_all() else end(f"{API.name} is not what the sources make of it")
    if not asked.folder:
        API.write_text(list_of_all())
        return 0
    asked.folder.mkdir(parents=True, exist_ok=True)
    crates = libraries()
    for crate in crates:
        (asked.folder / f"{crate.name}.md").write_text(page(crate, {crate.name for crate in crates}))
    return 0


if __name__ == "__main__":
    sys.exit(main())
