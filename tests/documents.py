#!/usr/bin/env python3
"""Shows that the documents speak of what there is: a name in backticks is in the code, a path and a link lead to a
file, in commands too, each block of code of docs/TUTORIAL.md and docs/APPLICATIONS.md is in the file named above
it, each definition that docs/DEFINITIONS.md quotes is, except for layout, that of the file named above it, each name
in a table with a column of files is in a file beside it, docs/API.md is what the sources make of it and has each law,
what README.md says of an engine with stale views is so, what bench/run and bench/applications wrote has the figures
of their tables, each picture is what its script draws and can be seen in a light and a dark theme, and the pages, the
front and the lines of scripts are not too long.

    tests/documents.py
"""

import ast
import re
import sys
import tokenize
from functools import cache
from pathlib import Path
from tempfile import TemporaryDirectory
from textwrap import indent
from typing import Iterator

from lib.program import DOCUMENTS, EXAMPLES, ROOT, TESTS, Tally, described, run
from lib.themes import LEAST, faults, smallest

CODE = {".rt", ".rs", ".antt", ".py", ".php", ".c", ".sh", ".sql", ".txt", ".edit"}
TUTORIALS = (DOCUMENTS / "TUTORIAL.md", DOCUMENTS / "APPLICATIONS.md")
DEFINITIONS = DOCUMENTS / "DEFINITIONS.md"
# Which column has the names in a table whose last one has their files.
OF_NAMES = {"Definition"}
# A block before which no file is named is the reader's own.
THE_READERS = ""
# What a page shows whole.
SHOWN = {
    ROOT / "README.md": ("examples/first_example.csv", "examples/first_example.replies"),
    DOCUMENTS / "TUTORIAL.md": ("crates/example_watch/stdout",),
}
# What docs/api.py makes of the sources: the one page that nobody writes, and its script.
API, API_SCRIPT = DOCUMENTS / "API.md", DOCUMENTS / "api.py"
# The names of calls with reasons are checked as those of a page.
REASONS = TESTS / "surface_forms.txt"
PICTURES = DOCUMENTS / "pictures"
# The script of the pictures that a browser takes.
TAKEN = PICTURES / "history.py"
# Those too wide for a phone.
WIDE = {"contended.svg"}
# Pictures that are drawn of examples.
DRAWN = {"contended.svg": ("examples/timeline.py", "examples/contended.history", "examples/contended.report")}
# How many words README.md may have, and all pages together without the parts that scripts write.
MOST_OF_THE_FIRST, MOST_WORDS = 700, 22_500
WRITTEN_BY_SCRIPTS = re.compile(r"(?s)<!-- (bench/[^>]*?) -->.*?<!-- end: [^>]* -->")
# A page tells how many lines of code a script and its modules have: those with more than a comment, a docstring or what
# lays code out.
LINES = (
    DOCUMENTS / "SERVING.md",
    re.compile(r"(\d+) lines of Python code"),
    (EXAMPLES / "front.py", *sorted((EXAMPLES / "front").glob("*.py"))),
)
NO_CODE = {tokenize.COMMENT, tokenize.NL, tokenize.NEWLINE, tokenize.INDENT, tokenize.DEDENT, tokenize.ENDMARKER}

# How many columns a line of Python may have, in any folder.
MOST_COLUMNS = 120

NAME = re.compile(r"[A-Za-z_]\w*(::[A-Za-z_]\w*)*(\(\))?|--[a-z]+")
# A path from the top, perhaps after steps up.
IN_A_COMMAND = re.compile(r"(?<![\w./])(?:\.\./)*((?:bench|docs|examples|tests)/\w[\w./-]*\w)")
# What is written in place of a name, a word of SQL, and the folder that builds make.
OTHER_WORDS = {"uN", "cN", "SERIALIZABLE"}
MADE = "out"


def documents() -> list[Path]:
    return [*ROOT.glob("*.md"), *DOCUMENTS.glob("*.md"), TESTS / "README.md"]


def pages() -> list[Path]:
    """The documents that are written by hand."""
    return [document for document in documents() if document != API]


def files() -> Iterator[Path]:
    return (
        path for path in ROOT.rglob("*") if path.is_file() and not {MADE, ".git"} & set(path.relative_to(ROOT).parts)
    )


@cache
def words_of_code() -> set[str]:
    """Each word that stands in a file of code, or is the name of a file."""
    words = set()
    for path in files():
        words |= {path.stem, *path.relative_to(ROOT).parts}
        if path.suffix in CODE and path != REASONS and path.parent != DOCUMENTS / "help":
            words.update(re.findall(r"\w+", path.read_text()))
    return words


def prose(document: Path) -> str:
    """A document without its blocks of code."""
    return re.sub(r"(?ms)^```.*?^```$|^ {4}.*?$", "", document.read_text())


def in_backticks(document: Path) -> list[str]:
    return re.findall(r"`([^`\n]+)`", prose(document))


def is_there(path: str) -> bool:
    """Whether a path leads to something from the top, from the crates or from a crate."""
    return any(any(ROOT.glob(front + path.rstrip("/"))) for front in ("", "crates/", "crates/*/"))


def names_and_paths(tally: Tally) -> None:
    """names and paths in backticks"""
    for document in [*documents(), REASONS]:
        for text in in_backticks(document):
            if NAME.fullmatch(text) and text not in OTHER_WORDS:
                unknown = set(re.findall(r"\w+", text)) - words_of_code()
                tally.check(not unknown, f"{document.name}: `{text}` is a name of the code")
            elif "/" in text and " " not in text and not text.startswith("/") and MADE not in Path(text).parts:
                tally.check(is_there(text), f"{document.name}: `{text}` is there")


def paths_in_commands(tally: Tally) -> None:
    """paths in commands and blocks of code"""
    for document in documents():
        for path in IN_A_COMMAND.findall(document.read_text()):
            if MADE not in Path(path).parts:
                tally.check((ROOT / path).exists(), f"{document.name}: {path} is there")


def files_of_specs(tally: Tally) -> None:
    """files of specs/ that are named with no folder"""
    for document in documents():
        for folder, names in re.findall(r"`(specs/(?:inner/)?)`,? ((?:[A-Z]\w+(?:, | and )?)+)", prose(document)):
            for name in re.findall(r"[A-Z]\w+", names):
                tally.check(is_there(f"{folder}{name}.antt"), f"{document.name}: {folder}{name}.antt is there")


def links(tally: Tally) -> None:
    """links, and the headings that they lead to"""
    for document in documents():
        for path in re.findall(r'\b(?:src|srcset)="([^"]*)"', prose(document)):
            tally.check((document.parent / path).exists(), f"{document.name}: {path} is there")
        for path, heading in re.findall(r"\]\(([^)#\s]*)#?([^)\s]*)\)", prose(document)):
            target = document.parent / path if path else document
            tally.check(target.exists(), f"{document.name}: {path} is there")
            if heading:
                tally.check(heading in headings(target), f"{document.name}: #{heading} is there")


def headings(document: Path) -> set[str]:
    titles = re.findall(r"(?m)^#+ (.*)$", document.read_text())
    return {re.sub(r"[^\w -]", "", title).lower().replace(" ", "-") for title in titles}


def libraries(tally: Tally) -> None:
    """docs/API.md, as docs/api.py makes it, with each law; and the pages of crates, with a comment on each item"""
    got = run([sys.executable, "-B", API_SCRIPT, "--check"])
    tally.check(got.status == 0, f"docs/api.py --check: {described(got)}")
    with TemporaryDirectory() as folder:
        run([sys.executable, "-B", API_SCRIPT, folder])
        for crate, listed in re.findall(r"(?ms)^### (\w+)\n(.*?)(?=^##|\Z)", API.read_text()):
            page = Path(folder) / f"{crate}.md"
            text = page.read_text() if page.exists() else ""
            lacking = [name for name in re.findall(r"`([^`]+)`", listed) if name not in text]
            tally.check(not lacking, f"{page.name} of docs/api.py lacks {lacking}")
            bare = re.findall(r"(?m)^## (\S+)\n\n```", text)
            tally.check(not bare, f"{crate}: no comment says what {bare} are")
    named = set(in_backticks(API))
    for path in ROOT.glob("crates/*/src/**/*.rt"):
        for name in re.findall(r"(?m)^pub fn (\w+)(?:<[^(]*>)?\(\)\n(?:    .*\n)*\{\}", path.read_text()):
            tally.check(name in named, f"{API.name} speaks of the law {name}")


def blocks_of_code(tally: Tally) -> None:
    """blocks of code of the tutorials"""
    for path, block in (named for page in TUTORIALS for named in blocks(page)):
        if path != THE_READERS:
            tally.check(block in (ROOT / path).read_text(), f"in {path} stands {block!r}")


def blocks(document: Path) -> Iterator[tuple[str, str]]:
    """Each block of code, with the file that was named last before it."""
    path = THE_READERS
    for named, block in re.findall(r"(?ms)From `([^`\n]+)`|^```\w+\n(.*?)^```$", document.read_text()):
        if named:
            path = named
        else:
            yield path, block


def shown_files(tally: Tally) -> None:
    """inputs and outputs that pages show whole"""
    for document, paths in SHOWN.items():
        for path in paths:
            tally.check(
                indent((ROOT / path).read_text(), "    ") in document.read_text(), f"{document.name} shows {path}"
            )


def quoted_definitions(tally: Tally) -> None:
    """definitions that docs/DEFINITIONS.md quotes"""
    for path, block in blocks(DEFINITIONS):
        there = parts(without_comments((ROOT / path).read_text()))
        for part in parts(without_comments(block)):
            tally.check(part in there, f"in {path} stands {part!r}")


def without_comments(code: str) -> str:
    return re.sub(r"(?m)^\s*--.*\n", "", code)


def parts(code: str) -> list[str]:
    """The definitions of a file, and what else stands there at a line's beginning, each on one line."""
    paragraphs = re.split(r"\n\s*\n|\n(?=\S)", code)
    return [" ".join(paragraph.split()) for paragraph in paragraphs if paragraph.strip()]


def tables(tally: Tally) -> None:
    """names in tables, each in a file beside it"""
    for names, files in rows_with_files(DEFINITIONS):
        places = places_of(files)
        for name in re.findall(r"`(?:\w+::)?(\w+)`", names):
            tally.check(
                any(stands_in(place, name) for place in places), f"{DEFINITIONS.name}: {name} stands in {files}"
            )


def rows_with_files(page: Path) -> Iterator[tuple[str, str]]:
    """The names and the files of each row of the tables that have both."""
    for table in re.findall(r"(?m)(?:^\|.*\|\n)+", page.read_text()):
        header, _, *rows = ([cell.strip() for cell in line.strip("|").split(" | ")] for line in table.splitlines())
        of_names = [at for at, title in enumerate(header) if title in OF_NAMES]
        if header[-1] == "File":
            yield from ((row[at], row[-1]) for row in rows for at in of_names)


def places_of(files: str) -> list[Path]:
    """The files to which a cell leads."""
    return [DOCUMENTS / path for path in re.findall(r"\]\(([^)]+)\)", files)]


def stands_in(place: Path, name: str) -> bool:
    """Whether a definition or its field, or a function, has this name there."""
    pattern = rf"(?m)^(?: *(?:(?:abbrev|unfoldable|pub|record|data|fn) )+)?{name}\b"
    return place.exists() and re.search(pattern, place.read_text()) is not None


def figures(tally: Tally) -> None:
    """figures that bench/run and bench/applications wrote, those of docs/performance"""
    for script in ("run", "applications"):
        got = run([sys.executable, "-B", ROOT / "bench" / script, "--compare"])
        tally.check(got.status == 0, f"bench/{script} --compare: {described(got)}")


def pictures(tally: Tally) -> None:
    """pictures, as their scripts draw them"""
    drawn = {name: [ROOT / word for word in words] for name, words in DRAWN.items()}
    scripts = [script for script in PICTURES.glob("*.py") if script != TAKEN]
    drawn |= {script.with_suffix(".svg").name: [script, "--print"] for script in scripts}
    for name, words in drawn.items():
        got = run([sys.executable, "-B", *words])
        tally.check(
            got.status == 0 and got.stdout == (PICTURES / name).read_bytes(),
            f"{words[0].name} draws {name}: {got.stderr!r}",
        )
    for path in PICTURES.glob("*.svg"):
        tally.check(path.name in drawn, f"{path.name} has a script")
    got = run([sys.executable, "-B", TAKEN, "--check"])
    tally.check(got.status == 0, f"{TAKEN.name} --check: {described(got)}")


def themes(tally: Tally) -> None:
    """colours of pictures, in a light and a dark theme, and the smallest words of those that a phone shows"""
    for path in DOCUMENTS.rglob("*.svg"):
        picture = path.read_text()
        wrong = list(faults(picture))
        tally.check(not wrong, f"{path.name}: {'; '.join(wrong)}")
        tally.check(
            path.name in WIDE or smallest(picture) >= LEAST,
            f"{path.name}: the smallest words have {smallest(picture):.1f} pixels, and need {LEAST}",
        )


def stale_views(tally: Tally) -> None:
    """the engine with stale views of README.md, whose commands print the line below them"""
    page = (ROOT / "README.md").read_text()
    shown = re.search(r"(?m)^((?:    python3 .*\n)+)\n    (line .*)\n", page)
    with TemporaryDirectory() as folder:
        commands = shown[1].replace("python3 ", f"'{sys.executable}' -B ")
        commands = commands.replace("engine.history", f"'{folder}/engine.history'")
        got = run(["sh", "-c", commands], cwd=ROOT)
    # Two dots stand for what is left out.
    wanted = ".*".join(map(re.escape, shown[2].split("..")))
    is_so = re.fullmatch(wanted, got.stdout.decode().strip()) is not None
    tally.check(is_so, f"README.md: {shown[2]}: {described(got)}")


def lengths(tally: Tally) -> None:
    """lengths of the pages"""
    words = {page: count(page.read_text()) for page in pages()}
    first = words[ROOT / "README.md"]
    tally.check(first <= MOST_OF_THE_FIRST, f"README.md has {first} words, of at most {MOST_OF_THE_FIRST}")
    of_hand = sum(count(WRITTEN_BY_SCRIPTS.sub("", page.read_text())) for page in pages())
    tally.check(of_hand <= MOST_WORDS, f"the pages have {of_hand} words, of at most {MOST_WORDS}")


def count(text: str) -> int:
    """How many words a text has: marks of tables and lists are none."""
    return len(re.findall(r"\S*\w\S*", text))


def lines_of_scripts(tally: Tally) -> None:
    """lines of examples/front.py and its modules, at most as many as docs/SERVING.md says"""
    page, told, scripts = LINES
    most, count = told.search(page.read_text()), sum(map(lines_of_code, scripts))
    tally.check(
        most is not None and count <= int(most[1]),
        f"{scripts[0].name} has {count} lines of code, and {page.name} tells {most}",
    )


def lines_of_code(script: Path) -> int:
    """How many lines of a script have code: without empty lines, comments and docstrings."""
    docs = [
        node
        for node in ast.walk(ast.parse(script.read_text()))
        if isinstance(node, ast.Expr) and isinstance(node.value, ast.Constant)
    ]
    with script.open("rb") as text:
        _, *tokens = tokenize.tokenize(text.readline)
    lines = {line for token in tokens if token.type not in NO_CODE for line in range(token.start[0], token.end[0] + 1)}
    return len(lines - {line for doc in docs for line in range(doc.lineno, doc.end_lineno + 1)})


def lengths_of_lines(tally: Tally) -> None:
    """lines of Python in all folders, at most 120 columns"""
    for path in sorted(filter(is_python, files())):
        name, lines = path.relative_to(ROOT), enumerate(path.read_text().splitlines(), 1)
        long = [f"{name}:{number} has {len(line)}" for number, line in lines if len(line) > MOST_COLUMNS]
        tally.check(not long, f"a line of Python, in any folder, has at most {MOST_COLUMNS} columns: {'; '.join(long)}")


def is_python(path: Path) -> bool:
    return path.suffix == ".py" or not path.suffix and path.read_bytes().startswith(b"#!/usr/bin/env python3\n")


def main() -> None:
    tally = Tally()
    of_names = (names_and_paths, paths_in_commands, links, libraries, files_of_specs)
    of_what_is_shown = (
        blocks_of_code,
        shown_files,
        quoted_definitions,
        tables,
        stale_views,
        figures,
        pictures,
        themes,
        lengths,
        lines_of_scripts,
        lengths_of_lines,
    )
    for check in (*of_names, *of_what_is_shown):
        tally.tell(check, tally)
    tally.finish()


if __name__ == "__main__":
    main()
