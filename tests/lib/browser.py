"""Pages: their elements, and what Chromium makes of them."""

import os
import shutil
import signal
from html.parser import HTMLParser
from pathlib import Path
from subprocess import PIPE, Popen
from typing import Iterator

from lib.program import SECONDS, Tally

BROWSERS = ("chromium", "chromium-browser", "google-chrome")
VOID = {"meta", "input", "br", "img", "link"}


class Element:
    def __init__(self, tag: str, attributes: dict) -> None:
        self.tag, self.attributes, self.parts = tag, attributes, []

    def text(self) -> str:
        return "".join(part if isinstance(part, str) else part.text() for part in self.parts)

    def all(self) -> Iterator["Element"]:
        yield self
        for part in self.parts:
            if isinstance(part, Element):
                yield from part.all()

    def of_class(self, name: str) -> list["Element"]:
        return [element for element in self.all() if name in (element.attributes.get("class") or "").split()]

    def of_tag(self, tag: str) -> list["Element"]:
        return [element for element in self.all() if element.tag == tag]

    def by_id(self, name: str) -> "Element":
        return next(element for element in self.all() if element.attributes.get("id") == name)


class Document(HTMLParser):
    """The elements of a page. Tags that do not match are faults."""

    def __init__(self, page: str) -> None:
        super().__init__()
        self.root = Element("", {})
        self.open, self.faults = [self.root], []
        self.feed(page)
        self.close()
        self.faults += [element.tag for element in self.open[1:]]

    def handle_starttag(self, tag: str, attributes: list[tuple[str, str | None]]) -> None:
        element = Element(tag, dict(attributes))
        self.open[-1].parts.append(element)
        if tag not in VOID:
            self.open.append(element)

    def handle_endtag(self, tag: str) -> None:
        if self.open[-1].tag == tag:
            self.open.pop()
        else:
            self.faults.append(f"/{tag}")

    def handle_data(self, data: str) -> None:
        self.open[-1].parts.append(data)


class Browser:
    """Opens pages, and gives what they have become and what the console says."""

    def __init__(self, tally: Tally, folder: Path) -> None:
        self.tally, self.folder = tally, folder
        self.command = next(filter(None, map(shutil.which, BROWSERS)), None)

    def opened(self, page: str, acts: str = "", width: int = 1280) -> Element:
        """The elements of a page after some acts, a script of its own. The console is to be silent."""
        path = self.folder / "page.html"
        path.write_text(page.replace("</body>", f"<script>{acts}</script></body>"))
        words = [
            "--headless",
            "--no-sandbox",
            "--disable-gpu",
            "--disable-breakpad",
            "--disable-dev-shm-usage",
            f"--window-size={width},900",
            "--enable-logging=stderr",
            "--virtual-time-budget=2000",
            f"--user-data-dir={self.folder / 'profile'}",
            "--dump-dom",
            path.as_uri(),
        ]
        with Popen([self.command, *words], stdout=PIPE, stderr=PIPE, start_new_session=True) as process:
            try:
                stdout, stderr = process.communicate(timeout=SECONDS)
            finally:
                end_session(process.pid)
        said = [line for line in stderr.decode(errors="replace").splitlines() if "CONSOLE" in line]
        self.tally.check(process.returncode == 0 and not said, f"Chromium: status {process.returncode}, {said}")
        return Document(stdout.decode()).root


def end_session(session: int) -> None:
    try:
        os.killpg(session, signal.SIGKILL)
    except ProcessLookupError:
        pass
