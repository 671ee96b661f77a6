#!/usr/bin/env python3
"""Shows that the built program answers each worked example of tests/worked as it is written there.

    tests/worked.py [PROGRAM]

An example has a line each for its name, `case: NAME`, and the program's words, `words: WORDS`. Then come the lines of
its input, each after `< `, and of its output, each after `> `. A last line of input without a line feed comes after
`<| `. `...` in its place stands for any lines, and `or` parts outputs that are all lawful. `status: N` is the exit
status, if it is not 0, and what stands after `! ` is on standard error. Every answer was worked out from
docs/FORMATS.md and docs/DEFINITIONS.md by hand.
"""

import re
from dataclasses import dataclass, field
from pathlib import Path

from lib.model import Outcome
from lib.program import BUILT, TESTS, Tally, described, executable, parser_of, run


@dataclass
class Example:
    name: str
    words: list[str] = field(default_factory=list)
    input: list[str] = field(default_factory=list)
    outputs: list[list[str]] = field(default_factory=lambda: [[]])
    errors: list[str] = field(default_factory=list)
    status: int = 0

    def take(self, line: str) -> None:
        """Adds what a line of the file says."""
        mark, _, rest = line.partition(" ")
        match mark:
            case "words:":
                self.words = rest.split()
            case "status:":
                self.status = int(rest)
            case "<":
                self.input.append(rest + "\n")
            case "<|":
                self.input.append(rest)
            case ">":
                self.outputs[-1].append(re.escape(rest) + "\n")
            case "...":
                self.outputs[-1].append("(.*\n)*")
            case "or":
                self.outputs.append([])
            case "!":
                self.errors.append(rest)
            case _:
                raise ValueError(f"{self.name}: not a line of an example: {line}")

    def text(self) -> bytes:
        return "".join(self.input).encode()

    def is_met(self, got: Outcome) -> bool:
        printed = got.stdout.decode()
        lawful = any(re.fullmatch("".join(lines), printed) for lines in self.outputs)
        return lawful and got.status == self.status and got.stderr.decode().splitlines() == self.errors


def examples_of(path: Path) -> list[Example]:
    found: list[Example] = []
    for line in path.read_text().splitlines():
        if line.startswith("case: "):
            found.append(Example(line.removeprefix("case: ")))
        elif line and not line.startswith("#"):
            found[-1].take(line)
    return found


def main() -> None:
    words = parser_of(__doc__)
    words.add_argument("program", nargs="?", type=executable, default=str(BUILT))
    program = words.parse_args().program
    tally = Tally()
    for path in sorted((TESTS / "worked").glob("*.txt")):
        examples = examples_of(path)
        for example in examples:
            got = run([program, *example.words], example.text())
            tally.check(example.is_met(got), f"{path.name}: {example.name}: got {described(got)}")
        print(f"{len(examples):6} examples: {path.name}", flush=True)
    tally.finish()


if __name__ == "__main__":
    main()
