#!/usr/bin/env python3
"""Draws a run as an SVG picture: a lane for each worker, a box for each line of its history, and a circle for each
stashed request in the phase that stashed it. FILE is the output of `rubis_auction --history`; if that of `--report`
is there too, after it or in a file of its own, hot objects are named.

    rubis_auction --history --report < INPUT | examples/timeline.py > timeline.svg
    examples/timeline.py examples/contended.history examples/contended.report > timeline.svg

With --html it writes a page of the whole history for a browser instead. If the output of `rubis_check` is there too,
the page marks the wrong line.

    rubis_check --history engine.history < INPUT | examples/timeline.py --html engine.history - > timeline.html"""
import fileinput
import json
import re
import sys
from argparse import Namespace
from collections import Counter
from difflib import SequenceMatcher
from html import escape
from pathlib import Path
from typing import Callable, Iterable, Iterator, NamedTuple

from command_line import parser_of
from svg import BLUE, GREY, GRID, INK, RED, SAND, SLATE, WHITE, box, circle, picture, text

LEFT, RIGHT, TOP = 92, 16, 84
USUAL_WIDTH, WIDEST, NARROWEST, LEAST_OF_A_PHASE = 1000, 92, 10, 104
# Narrower boxes have no words.
WITH_WORDS = 66
COLOURS = {"store": RED, "view": BLUE, "refused": SLATE}
ORDER = "The serial order is by phase, number and worker."
STORES = {"item", "bid", "comment", "buynow"}
# The template of a page and its scripts.
PAGE = Path(__file__).with_suffix("")
# Lines of which a page is made; any other is an unreadable one of the history.
READABLE = re.compile(r"([0-9]{1,20}) ([0-9]{1,20}) ([0-9]{1,20}) ([0-9]{1,20}) (.*)")
REPORT = re.compile(r"(phases|requests|refused) [0-9]+|hot [0-9]+ .*|category [0-9]+ latest.*|user [0-9]+ rating=.*")
VERDICT = re.compile(r"the history replays|line [0-9]{1,20}: .*|[0-9]+,[0-9]+ stands in no line")
# The phases of requests: of each worker by their indices, and of all by worker and index.
Scripts = dict[int, dict[int, int]]
Phases = dict[tuple[int, int], int]


class Entry(NamedTuple):
    phase: int
    number: int
    worker: int
    index: int
    reply: str

    def kind(self) -> str:
        word = self.reply.split(" ")[0]
        return "store" if word in STORES else "refused" if word == "refused" else "view"

    def words(self) -> str:
        """A store with its id, a refusal with its code, of a view only its kind."""
        return " ".join(self.reply.split(" ")[:1 if self.kind() == "view" else 2])


class Run(NamedTuple):
    entries: list[Entry]
    # The phase in which each request is asked, by worker and index: that of its entry, unless it is stashed.
    asked: Phases
    hot: dict[int, list[str]]
    # Whether quotas make these phases. Those of `--live` and of other engines are made otherwise.
    by_quotas: bool

    def alternates(self) -> bool:
        """Whether odd phases are known to be split: something is hot, or stashed as quotas have it, which may fit by
        chance if nothing is."""
        return bool(self.hot) or self.by_quotas and any(map(self.is_late, self.entries))

    def is_late(self, entry: Entry) -> bool:
        return self.asked[entry.worker, entry.index] < entry.phase


def read_run(lines: Iterable[str], split: int | None) -> Run:
    entries, hot = [], {}
    for number, line in enumerate(lines, 1):
        line = line.rstrip("\n")
        if found := re.fullmatch(r"(\d+) (\d+) (\d+) (\d+) (.*)", line):
            entries.append(Entry(*map(int, found.groups()[:4]), found[5]))
        elif found := re.fullmatch(r"hot (\d+) (.*)", line):
            hot[int(found[1])] = found[2].split()
        elif not re.match(r"(phases|requests|refused|category|user) ", line):
            sys.exit(f"timeline.py: line {number} is of no history and no report")
    if not entries:
        sys.exit("timeline.py: no history")
    scripts = {}
    for entry in entries:
        scripts.setdefault(entry.worker, {})[entry.index] = entry.phase
    asked = by_quotas(scripts, split)
    fits = all(asked[entry.worker, entry.index] in can_ask(entry.phase) for entry in entries)
    return Run(entries, asked if fits else by_order(scripts), hot, fits)


def can_ask(phase: int) -> tuple[int, ...]:
    """The phases in which a request that commits in this one can be asked: in a split one before it too."""
    return (phase,) if phase % 2 else (phase, phase - 1)


def by_quotas(scripts: Scripts, split: int | None) -> Phases:
    """Where requests are asked if each phase takes so many of each script."""
    joined = max(sum(phase == 0 for phase in script.values()) for script in scripts.values()) or 1
    split = split or split_quota(scripts.values(), joined)
    rounds = {(worker, index): divmod(index, joined + split) for worker, script in scripts.items() for index in script}
    return {request: 2 * turns + (left >= joined) for request, (turns, left) in rounds.items()}


def by_order(scripts: Scripts) -> Phases:
    """Where they are asked at the latest, whatever phases take: not after a later one of the script commits."""
    asked = {}
    for worker, script in scripts.items():
        first = max(script.values())
        for index in sorted(script, reverse=True):
            first = min(first, script[index])
            asked[worker, index] = first
    return asked


def split_quota(scripts: Iterable[dict[int, int]], joined: int) -> int:
    """Joined phases stash nothing, so a script that goes on after phase 2 shows it; of a shorter run only what it is at
    least."""
    least = 1
    for script in scripts:
        last = max((index for index, phase in script.items() if phase <= 2), default=-1)
        if last < max(script):
            return max(1, last + 1 - 2 * joined)
        least = max(least, max((index for index, phase in script.items() if phase == 1), default=-1) + 1 - joined)
    return least


def columns_of(own: list[Entry], late: list[Entry]) -> dict[Entry, tuple[int, int]]:
    """Where the entries of a phase and what it stashes are drawn: each (number, 0), or the number before it and a place
    after it."""
    places, last = {entry: (entry.number, 0) for entry in own}, {}
    for entry in sorted(late, key=lambda entry: entry.index):
        earlier = (other.number for other in own if other.worker == entry.worker and other.index < entry.index)
        before = max(earlier, default=0)
        place = max((before, 0), last.get(entry.worker, (0, 0)))
        last[entry.worker] = places[entry] = (place[0], place[1] + 1)
    return places


def chosen_phases(run: Run, first: int, most: int) -> list[int]:
    """As many phases from the first on as have so many entries together, but one at least."""
    chosen, count = [], 0
    lines = Counter(entry.phase for entry in run.entries if entry.phase >= first)
    for phase in sorted(lines):
        count += lines[phase]
        if chosen and count > most:
            break
        chosen.append(phase)
    return chosen


def line(x1: float, y1: float, x2: float, y2: float, stroke: str = GRID, dashes: str = "") -> str:
    dashed = f' stroke-dasharray="{dashes}"' if dashes else ""
    return f'<line x1="{x1:g}" y1="{y1:g}" x2="{x2:g}" y2="{y2:g}" stroke="{stroke}"{dashed}/>'


def hot_words(objects: list[str], width: float) -> str:
    """The objects that find room, and how many more there are."""
    room = max(1, int(width / 7.7) - 5)
    shown = list(objects)
    while len(shown) > 1 and len(" ".join(shown)) + 4 * (len(shown) < len(objects)) > room:
        shown.pop()
    more = f" +{len(objects) - len(shown)}" if len(shown) < len(objects) else ""
    return f"hot: {' '.join(shown)}{more}"


class Picture:
    def __init__(self, run: Run, phases: list[int], name: str) -> None:
        self.run, self.phases, self.name = run, phases, name
        self.workers = sorted({entry.worker for entry in run.entries})
        self.apart = 60 if len(self.workers) <= 8 else 50
        own, late = ({phase: [] for phase in phases} for _ in range(2))
        for entry in run.entries:
            asked = run.asked[entry.worker, entry.index]
            if entry.phase in own:
                own[entry.phase].append(entry)
            if asked in late and asked < entry.phase:
                late[asked].append(entry)
        self.places = {phase: columns_of(own[phase], late[phase]) for phase in phases}
        count = sum(len(set(places.values())) for places in self.places.values())
        self.column = min(WIDEST, max(NARROWEST, (USUAL_WIDTH - LEFT - RIGHT) / max(1, count)))
        self.box = 36
        self.foot = TOP + self.apart * len(self.workers)
        self.at, self.bounds, x = {}, {}, LEFT
        for phase in phases:
            order = sorted(set(self.places[phase].values()))
            width = max(LEAST_OF_A_PHASE, self.column * len(order))
            inner = x + (width - self.column * len(order)) / 2
            for entry, place in self.places[phase].items():
                self.at[entry, place[1] == 0] = inner + (order.index(place) + 0.5) * self.column
            self.bounds[phase] = (x, x + width)
            x += width
        self.width = max(x + RIGHT, 680)

    def lane(self, worker: int) -> float:
        return TOP + self.apart * (self.workers.index(worker) + 0.5)

    def frame(self) -> Iterator[str]:
        for phase, (begin, end) in self.bounds.items():
            kind = ("joined", "split")[phase % 2]
            if phase % 2:
                size = f'width="{end - begin:g}" height="{self.foot - TOP + 36}"'
                yield f'<rect x="{begin:g}" y="{TOP - 14}" {size} fill="{SAND}"/>'
            yield text((begin + end) / 2, 40, f"{phase}: {kind}", 15, weight="bold")
            if phase in self.run.hot:
                yield text((begin + end) / 2, 59, hot_words(self.run.hot[phase], end - begin), 14, fill=GREY)
        edges = sorted({x for pair in self.bounds.values() for x in pair})
        for x in edges:
            yield line(x, 26, x, self.foot + 22)
        yield text(14, 40, "phase", 15, "start", GREY)
        yield text(14, self.foot + 14, "number", 15, "start", GREY)
        for worker in self.workers:
            yield text(14, self.lane(worker) + 4, f"worker {worker}", 15, "start")
            yield line(LEFT, self.lane(worker), edges[-1], self.lane(worker))

    def numbers(self) -> Iterator[str]:
        """Commit numbers under their columns, as far as there is room."""
        room = 0
        for phase in self.phases:
            for entry in sorted(self.places[phase], key=lambda entry: entry.number):
                x = self.at.get((entry, True))
                if x is not None and entry.phase == phase and x >= room:
                    yield text(x, self.foot + 14, str(entry.number), 13, fill=GREY)
                    room = x + 7 + 8 * len(str(entry.number))

    def boxes(self) -> Iterator[str]:
        for (entry, committed), x in self.at.items():
            if committed:
                yield from self.entry(entry, x)
        for (entry, committed), x in self.at.items():
            if not committed:
                yield from self.stashed(entry, x)

    def entry(self, entry: Entry, x: float) -> Iterator[str]:
        width, lane = self.column - min(4, self.column / 5), self.lane(entry.worker)
        title = f"<g><title>{escape(' '.join(map(str, entry)))}</title>"
        edge = INK if self.run.is_late(entry) else ""
        yield title + box(x - width / 2, lane - self.box / 2, width, self.box, COLOURS[entry.kind()], 3, edge)
        if self.column >= WITH_WORDS:
            words, most = entry.words(), int(width / 7)
            yield text(x, lane - 2, words if len(words) <= most else words[:most - 1] + "…", 12, fill=WHITE)
            yield text(x, lane + 13, f"index {entry.index}", 12, fill=WHITE)
        yield "</g>"

    def stashed(self, entry: Entry, x: float) -> Iterator[str]:
        """A hollow circle at which it was asked, and its way to the box in which it is answered, if that is drawn."""
        lane, radius = self.lane(entry.worker), min(11, self.column / 2.6)
        answered = self.at.get((entry, True), max(x for pair in self.bounds.values() for x in pair))
        under = lane + self.box / 2 + 6
        yield line(x, lane + radius, x, under, INK, "2 3") + line(x, under, answered, under, INK, "2 3")
        if (entry, True) in self.at:
            yield line(answered, under, answered, lane + self.box / 2, INK, "2 3")
        title = f"<g><title>index {entry.index} of worker {entry.worker}, stashed</title>"
        yield title + circle(x, lane, WHITE, radius)
        if self.column >= WITH_WORDS:
            yield text(x, lane + 4, str(entry.index), 12)
        yield "</g>"

    def legend(self) -> Iterator[str]:
        y, x = self.foot + 48, 14
        for colour, words in ((COLOURS["store"], "store"), (COLOURS["view"], "view"), (COLOURS["refused"], "refused")):
            yield box(x, y - 9, 18, 14, colour, 3) + text(x + 26, y + 3, words, 15, "start")
            x += 56 + 8 * len(words)
        y += 27
        yield circle(23, y - 2, WHITE, 7)
        yield text(40, y + 3, "stashed: no number yet", 15, "start")
        yield box(262, y - 9, 18, 14, WHITE, 3, INK)
        yield text(288, y + 3, "its reply, in a later phase", 15, "start")
        yield text(14, y + 30, self.said(), 14, "start", GREY)

    def said(self) -> str:
        own = {entry.phase for entry in self.run.entries}
        if len(own) > len(self.phases):
            return f"From phase {self.phases[0]} to phase {self.phases[-1]}, of {len(own)} phases. {ORDER}"
        return ORDER

    def svg(self) -> str:
        title = f"Timeline of {self.name}"
        stashed = sum(not committed for _, committed in self.at)
        about = (
            f"{len(self.workers)} lanes, one for each worker, and {len(self.phases)} phases from left to right. "
            f"Boxes are lines of the history, by their numbers; {stashed} stashed requests are circles, "
            "each with a dashed line to its reply."
        )
        parts = [*self.frame(), *self.numbers(), *self.boxes(), *self.legend()]
        return picture(self.width, self.foot + 118, title, about, parts)


class Verdict(NamedTuple):
    """What the referee says, the line that it finds wrong, an earlier one that this contradicts, and the fields of its
    reply and of the one that was due, each with whether it differs."""

    text: str
    line: int | None = None
    other: int | None = None
    reply: list[tuple[str, bool]] | None = None
    due: list[tuple[str, bool]] | None = None


def read_verdict(text: str, history: list[str]) -> Verdict:
    found = re.fullmatch(r"line ([0-9]+): (.*)", text)
    if not found:
        return Verdict(text)
    number, said = int(found[1]), found[2]
    if number <= len(history) and said == "not PHASE NUMBER WORKER INDEX TEXT and a line feed":
        return Verdict(text, number)
    if 0 < number <= len(history) and (wrong := READABLE.fullmatch(history[number - 1])):
        _, _, worker, index, reply = wrong.groups()
        before = history[:number - 1]
        if found := re.fullmatch(f"{worker},{index} {re.escape(reply)} but (.*) was due", said):
            return Verdict(text, number, None, *compared(fields(reply), fields(found[1])))
        if said == f"{worker},{index} stands in no script":
            return Verdict(text, number)
        if said == f"{worker},{index} stands in an earlier line":
            return Verdict(text, number, first_of(before, worker, lambda other: other == int(index)))
        if said == f"{worker},{index} stands after a later request of its script":
            return Verdict(text, number, first_of(before, worker, lambda other: other > int(index)))
    sys.exit("timeline.py: the verdict is of another history")


def first_of(lines: list[str], worker: str, is_index: Callable[[int], bool]) -> int | None:
    """The first line of a worker with such an index."""
    for number, line in enumerate(lines, 1):
        found = READABLE.fullmatch(line)
        if found and found[3] == worker and is_index(int(found[4])):
            return number
    return None


def fields(reply: str) -> list[str]:
    """The words of a reply; a name is one to its end."""
    front, name, rest = reply.partition(" name=")
    return front.split(" ") + ([name[1:] + rest] if name else [])


def compared(reply: list[str], due: list[str]) -> list[list[tuple[str, bool]]]:
    """The fields of both, each with whether it differs; an empty one is only in the other."""
    matched = SequenceMatcher(None, reply, due).get_opcodes()
    parts = [(kind != "equal", reply[a:b], due[c:d]) for kind, a, b, c, d in matched]
    return [[(field, differs) for differs, *sides in parts for field in sides[side] or [""]] for side in (0, 1)]


def parted(lines: Iterable[bytes]) -> tuple[list[str], list[str], str | None]:
    """The lines of the history as they are, those of its report, and the verdict."""
    history, report, verdict = [], [], None
    for data in lines:
        line = data.decode(errors="replace").removesuffix("\n")
        if VERDICT.fullmatch(line):
            verdict = line
        else:
            (report if REPORT.fullmatch(line) else history).append(line)
    return history, report, verdict


def page(lines: Iterable[bytes], split: int | None, name: str) -> str:
    """The template, with its scripts and the name and data that they draw. All is ASCII, and no data ends an
    element."""
    history, report, verdict = parted(lines)
    readable = [at for at, line in enumerate(history) if READABLE.fullmatch(line)]
    run = read_run([history[at] for at in readable] + report, split)
    late = ((at, entry) for at, entry in zip(readable, run.entries) if run.is_late(entry))
    data = {
        "history": "\n".join(history),
        "hot": run.hot,
        "alternates": run.alternates(),
        "stashed": [(at, run.asked[entry.worker, entry.index]) for at, entry in late],
        "verdict": read_verdict(verdict, history)._asdict() if verdict else None,
    }
    files = ("page.html", "history.js", "draw.js", "act.js")
    parts = {file: (PAGE / file).read_text(encoding="ascii") for file in files}
    parts["name"] = escape(name).encode("ascii", "xmlcharrefreplace").decode()
    parts["data"] = json.dumps(data).replace("<", "\\u003c")
    return re.sub(r"\{\{([\w.]+)\}\}", lambda found: parts[found[1]], parts["page.html"])


def picture_of(lines: Iterable[str], asked: Namespace, name: str) -> str:
    run = read_run(lines, asked.split)
    phases = chosen_phases(run, asked.first, asked.most)
    if not phases:
        sys.exit(f"timeline.py: no phase from {asked.first} on")
    return Picture(run, phases, name).svg()


def main() -> None:
    parser = parser_of(__doc__)
    parser.add_argument(
        "files", metavar="FILE", nargs="*", help="a history, and its report if there is one [default: standard input]"
    )
    parser.add_argument(
        "--from", dest="first", metavar="PHASE", type=int, default=0, help="the first phase that is drawn [default: 0]"
    )
    parser.add_argument(
        "--most",
        metavar="LINES",
        type=int,
        default=300,
        help="whole phases of at most so many lines are drawn, one at least [default: 300]",
    )
    parser.add_argument(
        "--split", metavar="N", type=int, help="the run's --split; a history of at most three phases may not show it"
    )
    parser.add_argument(
        "--html", action="store_true", help="write a page, which has every phase, to zoom and to search"
    )
    asked = parser.parse_args()
    name = asked.files[0].rsplit("/", 1)[-1] if asked.files else "a run"
    how = {"mode": "rb"} if asked.html else {"encoding": "utf-8", "errors": "replace"}
    with fileinput.input(asked.files or "-", **how) as lines:
        drawn = page(lines, asked.split, name) if asked.html else picture_of(lines, asked, name)
    sys.stdout.write(drawn)


if __name__ == "__main__":
    main()
