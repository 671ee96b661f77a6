"""How the scripts of this repository read their words, and what they say instead of a traceback if a word is wrong, a
file or a program is not there, or they are interrupted: one line."""

import argparse
import csv
import os
import shutil
import sys
from pathlib import Path
from types import TracebackType
from typing import NoReturn


def parser_of(text: str) -> argparse.ArgumentParser:
    """A parser of a script's words. Its help begins with this text, which shows how the script is called."""
    sys.excepthook = tell
    return argparse.ArgumentParser(
        description=text, formatter_class=argparse.RawDescriptionHelpFormatter, usage=argparse.SUPPRESS
    )


def executable(word: str) -> Path:
    """The program that a word names: the type of such words."""
    if shutil.which(os.path.abspath(word)) is None:
        raise argparse.ArgumentTypeError(f"{word}: no such program")
    return Path(word).resolve()


def installed(name: str, package: str) -> str:
    """A program on the path, from this package of Debian."""
    if shutil.which(name) is None:
        end(f"{name} is not installed; Debian has it in {package}")
    return name


def end(words: str) -> NoReturn:
    """Ends the script with one line: the first one, of what another program said."""
    sys.exit(f"{Path(sys.argv[0]).name}: {words.strip().partition(os.linesep)[0]}")


def tell(kind: type[BaseException], fault: BaseException, trace: TracebackType | None) -> None:
    """Tells what ended the script, and where, unless it is no fault of the script."""
    if isinstance(fault, OSError) and fault.filename is not None:
        words = f"{fault.filename}: {fault.strerror}"
    elif isinstance(fault, UnicodeDecodeError):
        words = "an input is not text in UTF-8"
    elif isinstance(fault, csv.Error):
        words = f"an input is not in CSV: {fault}"
    elif isinstance(fault, KeyboardInterrupt):
        words = "interrupted"
    else:
        return sys.__excepthook__(kind, fault, trace)
    print(f"{Path(sys.argv[0]).name}: {words}", file=sys.stderr)
