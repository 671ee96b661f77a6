#!/usr/bin/env python3
"""Takes docs/pictures/history.png and history_dark.png: the page that examples/timeline.py makes of a history with a
wrong line, as Chromium shows it in a light and in a dark theme.

    docs/pictures/history.py            writes both; Chromium is needed
    docs/pictures/history.py --check    takes nothing: whether both are of the page as it is made now

Each picture keeps the sum of its page, so whether it is up to date can be told without a browser."""

import struct
import subprocess
import sys
import zlib
from hashlib import sha256
from pathlib import Path
from tempfile import TemporaryDirectory

ROOT = Path(__file__).resolve().parents[2]
EXAMPLES = ROOT / "examples"
sys.path.append(str(EXAMPLES))
from command_line import end, installed, parser_of

# README.md shows these commands: an engine that reads stale data, and how its history is judged.
LOAD, SEED = EXAMPLES / "skewed.csv", "40"
# So narrow that the smallest words can be read where a phone scales the picture down, and down to the lanes' end.
WIDTH, HEIGHT, SCALE = 480, 780, 2
# What Chromium calls the themes.
THEMES = {"history.png": 1, "history_dark.png": 0}
SIGNATURE, HEAD = b"\x89PNG\r\n\x1a\n", 25
SUM = b"sum of the page\0"


def output(*words: object, stdin: bytes = b"") -> bytes:
    command = [sys.executable, "-B", *map(str, words)]
    return subprocess.run(command, input=stdin, stdout=subprocess.PIPE).stdout


def page() -> bytes:
    with TemporaryDirectory() as folder:
        history = Path(folder) / "engine.history"
        history.write_bytes(output(EXAMPLES / "small_engine.py", "--stale", LOAD, SEED))
        verdict = output(EXAMPLES / "replay.py", LOAD, history)
        return output(EXAMPLES / "timeline.py", "--html", history, "-", stdin=verdict)


def chunk_of(text: bytes) -> bytes:
    """The part of a picture that keeps the sum of its page."""
    told = b"tEXt" + SUM + sha256(text).hexdigest().encode()
    return struct.pack(">I", len(told) - 4) + told + struct.pack(">I", zlib.crc32(told))


def taken(text: bytes, theme: int) -> bytes:
    with TemporaryDirectory() as folder:
        source, picture = Path(folder) / "page.html", Path(folder) / "page.png"
        source.write_bytes(text)
        words = ["--headless", "--no-sandbox", "--disable-gpu", "--disable-dev-shm-usage", "--hide-scrollbars"]
        words += [f"--force-device-scale-factor={SCALE}", f"--window-size={WIDTH},{HEIGHT}"]
        words += [f"--blink-settings=preferredColorScheme={theme}", "--virtual-time-budget=2000"]
        words += [f"--user-data-dir={folder}/profile", f"--screenshot={picture}", source.as_uri()]
        subprocess.run([installed("chromium", "chromium"), *words], stderr=subprocess.DEVNULL)
        if not picture.exists():
            end("Chromium has taken no picture")
        return picture.read_bytes()


def main() -> None:
    words = parser_of(__doc__)
    words.add_argument("--check", action="store_true", help="whether both pictures are of the page as it is made now")
    text, folder = page(), Path(__file__).parent
    if words.parse_args().check:
        old = [name for name in THEMES if chunk_of(text) not in (folder / name).read_bytes()]
        return end(f"{', '.join(old)}: not of the page as it is made now") if old else None
    for name, theme in THEMES.items():
        picture, at = taken(text, theme), len(SIGNATURE) + HEAD
        (folder / name).write_bytes(picture[:at] + chunk_of(text) + picture[at:])


if __name__ == "__main__":
    main()
