#!/usr/bin/env python3
"""Makes the man pages of the programs from their --help, and from the table of faults in docs/FORMATS.md.

    docs/man_pages.py FOLDER [PROGRAM..]
    man -l FOLDER/rubis_auction.1

The programs are rubis_auction, rubis_check and rubis_load, as they are built in crates/*/out, unless others are given.
Nothing is built."""

import re
import subprocess
import sys
from pathlib import Path
from typing import Iterator, NamedTuple

ROOT = Path(__file__).resolve().parent.parent

sys.path.append(str(ROOT / "examples"))
from command_line import end, executable, parser_of

NAMES = ("rubis_auction", "rubis_check", "rubis_load")
# The page that has the faults of a program, and the head of its table.
FAULTS = {"rubis_auction": (ROOT / "docs" / "FORMATS.md", "| Text | Status | Cause |\n")}

PARTS = re.compile(
    r"(?s)(?P<what>.+?)\n\nUsage: (?P<name>\w+) (?P<usage>.+?)\n\nOptions:\n(?P<options>.+?)\n\n"
    r"(?P<text>.+)\nExamples:\n(?P<examples>.+)"
)
OPTION = re.compile(r" +((?:-\w, +)?--[\w-]+)( <\w+>)? +(.*)")
STATUSES = re.compile(r"(?s)Status: (.*?)\.\n")
ESCAPES = str.maketrans({"\\": "\\e", "-": "\\-", "'": "\\(aq", '"': "\\(dq", "`": "\\(ga", "^": "\\(ha", "~": "\\(ti"})


class Help(NamedTuple):
    """What help says: what the program does, its name, its usage without the name, lines of options, the paragraphs
    after them, and examples."""

    what: str
    name: str
    usage: str
    options: str
    text: str
    examples: str

    @staticmethod
    def of(program: Path) -> "Help":
        found = PARTS.fullmatch(said(program, "--help"))
        if found is None:
            end(f"{program}: its --help has other parts than a man page")
        return Help(**found.groupdict())


def said(program: Path, word: str) -> str:
    return subprocess.run([program, word], stdin=subprocess.DEVNULL, stderr=subprocess.PIPE, text=True).stderr


def roff(text: str) -> str:
    """A text as it is; a line of it is no request."""
    return re.sub(r"(?m)^\.", r"\\&.", text.translate(ESCAPES))


def marked(cell: str) -> str:
    """A cell of a table, without links, and bold where it is code."""
    words = re.sub(r"\[([^\]]+)\]\([^)]*\)", r"\1", cell).split("`")
    return "".join(f"\\fB{roff(word.strip())}\\fR" if at % 2 else roff(word) for at, word in enumerate(words))


def options(lines: str) -> Iterator[str]:
    for line in lines.splitlines():
        words, value, text = OPTION.fullmatch(line).groups()
        yield f".TP\n\\fB{roff(words)}\\fR\\fI{roff(value or '')}\\fR\n{roff(text)}"


def paragraphs(text: str) -> Iterator[str]:
    """Paragraphs, of which indented lines stay as they are."""
    for paragraph in text.strip("\n").split("\n\n"):
        yield ".PP"
        for is_block, lines in re.findall(r"(?m)((?:^  .*\n)+)|((?:^\S.*\n)+)", f"{paragraph}\n"):
            yield block(is_block) if is_block else roff(lines.rstrip("\n"))


def block(lines: str) -> str:
    return f".RS 4\n.EX\n{roff(re.sub('(?m)^  ', '', lines).rstrip())}\n.EE\n.RE"


def statuses(text: str) -> Iterator[str]:
    """The statuses that help lists."""
    for status in re.split(r"[,;]\s(?=\d )", STATUSES.search(text)[1]):
        number, _, cause = status.partition(" ")
        yield f".TP\n.B {number}\n{roff(cause)}"


def faults(name: str) -> Iterator[str]:
    """The causes of statuses, with the texts on standard error, if a page has them."""
    if name in FAULTS:
        document, head = FAULTS[name]
        yield ".SS Faults\nEach is told in a line on standard error: its text, its status, and its cause."
        for row in document.read_text().partition(head)[2].partition("\n\n")[0].splitlines()[1:]:
            text, status, cause = row.strip("| ").split(" | ")
            yield f".TP\n{marked(text)}\n{roff(status)}: {marked(cause)}"


def page(program: Path) -> tuple[str, str]:
    """The name of a program, and its page."""
    told, version = Help.of(program), said(program, "--version").strip()
    sections = {
        "NAME": [f"{told.name} \\- {roff(told.what[0].lower() + told.what[1:].rstrip('.'))}"],
        "SYNOPSIS": [f".B {told.name}\n{roff(told.usage)}"],
        "DESCRIPTION": [roff(told.what), *paragraphs(STATUSES.sub("", told.text))],
        "OPTIONS": options(told.options),
        "EXIT STATUS": [*statuses(told.text), *faults(told.name)],
        "EXAMPLES": [block(told.examples)],
        "SEE ALSO": [", ".join(f"\\fB{name}\\fR(1)" for name in NAMES if name != told.name)],
    }
    # No word is divided, so that each can be found and copied.
    head = f'.TH {told.name.upper()} 1 "" "{roff(version)}"\n.nr HY 0\n.nh\n.ad l'
    body = (line for title, lines in sections.items() for line in (f".SH {title}", *lines))
    return told.name, "\n".join([head, *body, ""])


def main() -> None:
    words = parser_of(__doc__)
    words.add_argument("folder", metavar="FOLDER", type=Path, help="where the pages are written")
    words.add_argument("programs", metavar="PROGRAM", nargs="*", type=executable, help="built elsewhere")
    asked = words.parse_args()
    pages = dict(map(page, asked.programs or [ROOT / "crates" / name / "out" / name for name in NAMES]))
    for name, text in pages.items():
        (asked.folder / f"{name}.1").write_text(text)


if __name__ == "__main__":
    main()
