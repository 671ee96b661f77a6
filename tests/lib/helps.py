"""What help and version of all programs have alike."""

import re
from pathlib import Path

from lib.program import DOCUMENTS, Tally, described, run

# An option that takes a number, with its range and what it is without words.
NUMBER = re.compile(r"(?m)^ +--([\w-]+) <N> +\w.*, (\d+) to (\d+)(?:; .*)? \[default: (\d+)\]$")
OPTION = re.compile(r"(?m)^  (?:-\w,|   ) --([\w-]+)(?: <\w+>)? +\w.*$")
EXAMPLES = re.compile(r"(?m)^Examples:\n((?:  .+\n)+)\Z")
STATUSES = "Status: 0 "


def help_and_version(tally: Tally, program: Path, name: str, is_shown: bool, needed: tuple = ()) -> str:
    """Tests both, and gives what help says: docs/help has it, if it is shown there, each option has a line, and each
    range is the one that is taken with the words that are needed."""
    said = ""
    for word in ("--help", "-h"):
        got = run([program, word])
        said = got.stderr.decode()
        tally.check(got.status == 1 and not got.stdout and said.count("\n") > 9, f"{name} {word}: {described(got)}")
        if is_shown:
            shown = DOCUMENTS / "help" / f"{name}.txt"
            tally.check(said == shown.read_text(), f"docs/help/{shown.name} is what {name} {word} prints")
    tally.check(f"\nUsage: {name} [" in said and f"\n{STATUSES}" in said, f"{name} --help: usage and statuses")
    lines = re.findall(r"(?m)^ +(?:-\w, +)?--.*$", said.partition("\nOptions:\n")[2].partition("\n\n")[0])
    tally.check(len(lines) == len(OPTION.findall(said)) > 1, f"{name} --help: an option without a text in {lines}")
    for option, least, most, usual in NUMBER.findall(said):
        tally.check(int(least) <= int(usual) <= int(most), f"{name} --help: {option}")
        for number in (int(least) - 1, int(most) + 1):
            got = run([program, *needed, f"--{option}={number}"])
            tally.check(
                got.status == 1 and not got.stdout and f"'--{option}" in got.stderr.decode(),
                f"{name} --{option}={number}: {described(got)}",
            )
    for word in ("--version", "-V"):
        got = run([program, word])
        right = got.status == 1 and not got.stdout and re.fullmatch(rf"{name} \d+\.\d+\.\d+\n", got.stderr.decode())
        tally.check(bool(right), f"{name} {word}: {described(got)}")
    return said


def examples(tally: Tally, said: str, name: str, folder: Path, programs: dict[str, Path]) -> None:
    """The two examples of a program's help run in a folder with the files that they read."""
    commands = [line.strip() for line in EXAMPLES.search(said)[1].splitlines()]
    tally.check(
        len(commands) == 2 and all(command.startswith(name) for command in commands),
        f"{name} --help: examples {commands}",
    )
    for link, program in programs.items():
        (folder / link).symlink_to(program.resolve())
    for command in commands:
        got = run(["bash", "-c", f'PATH="{folder}:$PATH"; cd "{folder}"; {command}'])
        tally.check(got.status == 0 and not got.stderr, f"{command}: {described(got)}")
