#!/usr/bin/env python3
"""Tests examples/timeline.py: its picture has each line of a history and what is stashed, and so has its page
(--html), which is a whole document with no outside parts, whatever the lines are, and marks what rubis_check finds
wrong; and in Chromium, if it is installed, what is drawn, and what keys, the wheel and a search show.

    tests/timeline.py [CHECKER [PROGRAM]]
"""

import functools
import json
import os
import re
import resource
import sys
from pathlib import Path
from tempfile import TemporaryDirectory
from typing import Sequence
from xml.etree import ElementTree

from lib.browser import Browser, Document
from lib.program import BUILT, EXAMPLES, TESTS, Tally, built, described, executable, parser_of, run
from lib.themes import contrast, faults

TIMELINE = EXAMPLES / "timeline.py"
CONTENDED = (EXAMPLES / "contended.history").read_bytes()
REFEREE = ["--workers", "2", "--users", "10", "--categories", "2", "--order"]
SKEWED, JOINED, SPLIT = EXAMPLES / "skewed.csv", 8, 24
OF_SKEWED = [
    "--workers=4",
    "--users=6",
    "--categories=3",
    f"--joined={JOINED}",
    f"--split={SPLIT}",
    "--threshold=3",
    "--history",
]
SVG = "{http://www.w3.org/2000/svg}"
# What loads something, or runs a text.
OUTSIDE = re.compile(
    r"://|url\(|@import|import\(|fetch\(|XMLHttpRequest|WebSocket|EventSource|eval\(|innerHTML"
    r"|\b(src|href|action|srcset|poster)="
)
LARGE, SECONDS = 100_000, 20
# Keeps how large boxes are as they are laid out.
MEASURE = """
const sizes = [...document.querySelectorAll(".box rect")].map((box) => box.getBoundingClientRect())
    .map(({ width, height }) => [width, height]);
document.body.dataset.sizes = JSON.stringify(sizes);
"""
# Keeps which heads of the list are cut off, and in how many rows the tools stand.
NARROW = """
const cut = [...document.querySelectorAll("#head > span")].filter((head) => head.scrollWidth > head.clientWidth);
const tops = [...document.querySelectorAll("#search, #tools button")]
    .map((tool) => Math.round(tool.getBoundingClientRect().top));
document.body.dataset.narrow = JSON.stringify({ cut: cut.map((head) => head.textContent), rows: new Set(tops).size });
"""
# How wide a page may be, and how many rows of tools it has then.
ROWS_OF_TOOLS = {400: 2, 830: 1}
# Keeps what there is after each stage of some acts.
SEE = """
const stages = [], all = (selector) => [...document.querySelectorAll(selector)];
const see = () => {
    draw();
    stages.push({
        elements: all("*").length, boxes: all(".box:not(.dim)").map((box) => Number(box.dataset.line)),
        rows: all(".row").map((row) => row.id), told: byId("told").textContent, found: byId("found").textContent,
    });
    document.body.dataset.seen = JSON.stringify(stages);
};
"""

# An item, two bids and a view of them, with the history that follows.
BIDS = b"0,item,0,0,Vase,10,100,1\n0,bid,1,0.0,10,5\n1,bid,2,0.0,20,6\n1,viewbids,0.0\n"
OF_BIDS = ["0 1 0 0 item 0.0", "0 2 0 1 bid 0.0", "0 3 1 0 bid 1.0", "0 4 1 1 bids 20:6:2:1.0 10:5:1:0.0"]

# No quotas make these phases.
OTHER = b"0 1 0 0 bid 0.0\n0 1 1 0 bid 1.0\n0 2 1 1 bid 1.1\n0 3 1 2 bid 1.2\n1 1 0 2 bid 0.1\n2 1 0 1 viewitem x\n"
PARTS = b"0 1 0 0 item 0.0\n1 1 0 1 bid 0.0\n2 1 0 2 bid 0.1\n3 1 0 3 bid 0.2\n"

HOSTILE = [
    b'0 1 0 0 viewitem name=</script><script>document.title = "taken"</script>',
    b"0 2 0 1 viewitem name=<!--<script> -->",
    b"0 3 0 2 viewitem name={{data}}{{name}}{{script}}</body></html>",
    "0 4 0 3 viewitem name=\u2028\u2029\\u003c\"'&lt;<img src=x onerror=\"document.title='taken'\">".encode(),
    b"0 5 0 4 viewitem name=\0\r\x1b[31m\xff\xc3 but name=x was due",
    b"0 6 0 5 ",
    b"</script>",
    b"",
]
HOSTILE_NAME = b"<img src=x onerror=alert(1)>{{data}}&\"\xff.history"

# Colours by their names: words on a ground, and shapes on it.
WORDS = [
    ("ink", "ground"),
    ("ink", "panel"),
    ("soft", "ground"),
    ("soft", "panel"),
    ("soft", "split"),
    ("ink", "split"),
    ("on-store", "store"),
    ("on-view", "view"),
    ("on-wrong", "wrong"),
    ("on-mark", "mark"),
    ("ground", "ink"),
]
SHAPES = [
    (shape, ground)
    for shape in ("store", "view-edge", "share", "refused-edge", "wrong", "focus")
    for ground in ("ground", "split")
] + [("store", "view")]


class Maker:
    """Makes pages of histories and of what the referee says of them."""

    def __init__(self, tally: Tally, checker: Path, folder: Path) -> None:
        self.tally, self.checker, self.folder = tally, checker, folder

    def page(
        self,
        history: bytes,
        verdict: bytes = b"",
        report: bytes = b"",
        words: Sequence[str] = (),
        name: str = "history",
    ) -> str:
        paths = [self.folder / name, self.folder / "verdict", self.folder / "report"]
        for path, content in zip(paths, (history, verdict, report)):
            path.write_bytes(content)
        got = run([TIMELINE, "--html", *words, *paths])
        self.tally.check(
            got.status == 0 and not got.stderr and got.stdout.isascii(), f"timeline.py --html: {described(got)}"
        )
        return got.stdout.decode()

    def verdict(self, given: bytes, history: bytes, words: Sequence[str] = REFEREE) -> bytes:
        path = self.folder / "judged"
        path.write_bytes(history)
        return run([self.checker, *words, "--history", path], given).stdout

    def judged(self, given: bytes, lines: list[str]) -> tuple[str, dict]:
        """The page of a history with its verdict, and the verdict's part of the data."""
        history = "".join(line + "\n" for line in lines).encode()
        verdict = self.verdict(given, history)
        page = self.page(history, verdict)
        data = data_of(page)
        self.tally.check(data["history"].split("\n") == lines, f"the lines of {lines}")
        self.tally.check(data["verdict"]["text"].encode() + b"\n" == verdict, f"the verdict on {lines}: {verdict!r}")
        return page, data["verdict"]


def data_of(page: str) -> dict:
    found = re.search(r'<script type="application/json" id="data">(.*?)</script>', page, re.S)
    return json.loads(found[1]) if found else {}


def pictures(make: Maker, program: Path) -> None:
    """pictures of histories: each line once, and each stashed request once more"""
    tally = make.tally
    history = run([program, *OF_SKEWED, "--report"], SKEWED.read_bytes()).stdout
    lines = [line for line in history.decode().splitlines() if line[0].isdigit()]
    shown, late = drawn(tally, history, ["--split", str(SPLIT)])
    tally.check(sorted(shown) == sorted(lines), f"timeline.py: {len(shown)} boxes of {len(lines)} lines")
    requests = [map(int, line.split(" ")[:4]) for line in lines]
    wanted = [
        f"index {index} of worker {worker}, stashed" for phase, _, worker, index in requests if phase > reached(index)
    ]
    tally.check(wanted != [] and sorted(late) == sorted(wanted), f"timeline.py: stashed {late}, not {wanted}")
    tally.check(drawn(tally, history, []) == (shown, late), "timeline.py: the split quota is not found")
    in_order(tally, shown, late)
    name = make.folder / "h"
    name.write_bytes(b"0 1 0 0 viewitem seller=0 name=<&\">\n" + b"0 2 0 1 refused 3 NoSuchItem\n")
    shown, late = drawn(tally, b"", [name])
    tally.check(
        list(shown) == ['0 1 0 0 viewitem seller=0 name=<&">', "0 2 0 1 refused 3 NoSuchItem"] and not late,
        f"timeline.py: {shown}, {late}",
    )
    shown, late = drawn(tally, OTHER, [])
    tally.check(
        len(shown) == 6 and list(late) == ["index 1 of worker 0, stashed"],
        f"timeline.py, other phases: {shown}, {late}",
    )
    for given, words in ((b"", []), (b"0,0,item 0.0\n", []), (b"", [TESTS / "none"]), (history, ["--from", "99"])):
        got = run([TIMELINE, *words], given)
        tally.check(
            got.status == 1 and not got.stdout and got.stderr.startswith(b"timeline.py: "),
            f"timeline.py, {given[:20]!r}, {words}: {described(got)}",
        )


def in_order(tally: Tally, shown: dict[str, float], late: dict[str, float]) -> None:
    """What reaches a phase lies in it from left to right in the order of each script, stashed or not."""
    asked = [(x, *map(int, line.split(" ")[:4])) for line, x in shown.items()]
    asked = [(worker, index, x) for x, phase, _, worker, index in asked if phase == reached(index)]
    asked += [(worker, index, x) for text, x in late.items() for index, worker in [map(int, re.findall(r"\d+", text))]]
    for worker in {one[0] for one in asked}:
        places = [x for _, _, x in sorted(one for one in asked if one[0] == worker)]
        tally.check(places == sorted(places), f"timeline.py: worker {worker} from left to right: {places}")


def reached(index: int) -> int:
    rounds, left = divmod(index, JOINED + SPLIT)
    return 2 * rounds + (left >= JOINED)


def drawn(tally: Tally, history: bytes, words: list) -> tuple[dict[str, float], dict[str, float]]:
    """What the boxes and what the circles of a timeline say, each with where its middle is; all of it
    is to be seen in both themes."""
    got = run([TIMELINE, *words], history)
    tally.check(got.status == 0 and not got.stderr, f"timeline.py {words}: {described(got)}")
    wrong = list(faults(got.stdout.decode() or "<svg/>"))
    tally.check(not wrong, f"timeline.py {words}: {'; '.join(wrong)}")
    boxes, circles = {}, {}
    for title, shape, *_ in ElementTree.fromstring(got.stdout or b"<svg/>").iter(f"{SVG}g"):
        if shape.tag == f"{SVG}rect":
            boxes[title.text] = float(shape.get("x")) + float(shape.get("width")) / 2
        else:
            circles[title.text] = float(shape.get("cx"))
    return boxes, circles


def whole_pages(make: Maker, program: Path) -> None:
    """a run's page: a whole document with no outside parts, its lines, stashed requests, hot objects and name"""
    both = run([program, *OF_SKEWED, "--report"], SKEWED.read_bytes()).stdout
    history, report = re.fullmatch(rb"(.*\n)(phases .*)", both, re.S).groups()
    page = make.page(history, report=report)
    data, document = data_of(page), Document(page)
    check = make.tally.check
    check(data["history"].encode() + b"\n" == history, "each line of the history")
    requests = [tuple(map(int, line.split(b" ")[:4])) for line in history.splitlines()]
    asked = [reached(index) for _, _, _, index in requests]
    late = [[at, asked[at]] for at, (phase, *_) in enumerate(requests) if phase > asked[at]]
    check(late != [] and data["stashed"] == late, f"stashed: {data['stashed']}, not {late}")
    hot = {words[1]: words[2:] for words in map(str.split, report.decode().splitlines()) if words[0] == "hot"}
    check(hot != {} and data["hot"] == hot and data["verdict"] is None, f"hot: {data['hot']}, not {hot}")
    check(
        data["alternates"] and not any(data_of(make.page(other))["alternates"] for other in (OTHER, PARTS)),
        "phases that quotas make, and others",
    )
    check(not document.faults and page.startswith("<!DOCTYPE html>\n"), f"tags that do not match: {document.faults}")
    for tag in ("html", "head", "title", "body", "main", "h1", "noscript"):
        check(len(document.root.of_tag(tag)) == 1, f"one {tag}")
    check(
        {element.text() for tag in ("title", "h1") for element in document.root.of_tag(tag)} == {"Timeline of history"},
        "the title",
    )
    outside = OUTSIDE.search(page.replace(json.dumps(data["history"]), ""))
    check(outside is None, f"no outside part: {outside}")
    check(
        "default-src 'none'" in str([element.attributes for element in document.root.of_tag("meta")]),
        "nothing may be loaded",
    )
    check(
        {element.tag for element in document.root.all()}.isdisjoint(
            {"link", "img", "iframe", "object", "embed", "base"}
        ),
        "no element that loads",
    )


def readable_by_all(make: Maker, _: Path) -> None:
    """names and labels for those who listen, and contrast in the light and the dark theme"""
    page = make.page(CONTENDED)
    root = Document(page).root
    ids = [element.attributes["id"] for element in root.all() if "id" in element.attributes]
    labels = {element.attributes.get("for") for element in root.of_tag("label")}
    make.tally.check(
        len(ids) == len(set(ids)) and root.of_tag("html")[0].attributes.get("lang") == "en", "ids and language"
    )
    make.tally.check(
        all(element.attributes["id"] in labels for element in root.of_tag("input")), "each input has a label"
    )
    make.tally.check(all(element.text() for element in root.of_tag("button")), "each button has words")
    for name in ("lanes", "list"):
        element = root.by_id(name).attributes
        make.tally.check(
            element.get("tabindex") == "0" and element.get("aria-describedby") == "help", f"keys reach the {name}"
        )
    light, dark = (
        dict(re.findall(r"--([\w-]+): #([0-9a-f]{6})", part))
        for part in page.split("@media (prefers-color-scheme: dark)")[:2]
    )
    for theme, colours in (("light", light), ("dark", light | dark)):
        for least, pairs in ((4.5, WORDS), (3, SHAPES)):
            for one, other in pairs:
                ratio = contrast(colours[one], colours[other])
                make.tally.check(
                    ratio >= least, f"{theme}: {one} on {other} has a contrast of {ratio:.2f}, and needs {least}"
                )


def changed(number: int, old: str, new: str) -> list[str]:
    """The contended history with another text in a line."""
    lines = CONTENDED.decode().splitlines()
    assert old in lines[number - 1]
    lines[number - 1] = lines[number - 1].replace(old, new)
    return lines


def verdicts(make: Maker, _: Path) -> None:
    """verdicts of rubis_check on changed histories: the wrong line, the one it
    contradicts, and the fields that differ"""
    given = (EXAMPLES / "contended.csv").read_bytes()
    right, copied = CONTENDED.decode().splitlines(), changed(4, "0 2 1 1", "0 2 1 0")
    late = [
        line.replace("1 1 0 2", "1 1 0 4") if at == 4 else line.replace("1 2 0 4", "1 2 0 2")
        for at, line in enumerate(right)
    ]
    cases = [
        (given, right, None, None, None, None),
        (given, changed(8, "highest=30", "highest=31"), 8, None, ["highest=31"], ["highest=30"]),
        (
            given,
            changed(8, "highest=30 bidder=1 bids=4", "highest=3 bidder=1 bids=5"),
            8,
            None,
            ["highest=3", "bids=5"],
            ["highest=30", "bids=4"],
        ),
        (
            given,
            changed(8, "Vase", "Vase but bids=9 was due"),
            8,
            None,
            ["name=Vase but bids=9 was due"],
            ["name=Vase"],
        ),
        (given, changed(5, "bid 0.1", "refused 5 Closed"), 5, None, ["refused", "5", "Closed"], ["bid", "0.1"]),
        (given, changed(3, "0 2 0 1 bid 0.0", "0 2 0"), 3, None, None, None),
        (given, changed(2, "0 1 1 0", "0 1 1 77"), 2, None, None, None),
        (given, changed(2, "0 1 1 0", "0 1 70000 0"), 2, None, None, None),
        (given, copied, 4, 2, None, None),
        (given, late, 7, 5, None, None),
        (given, right[:-1], None, None, None, None),
        (BIDS, [*OF_BIDS[:3], "0 4 1 1 bids 10:5:1:0.0"], 4, None, [""], ["20:6:2:1.0"]),
        (BIDS, [*OF_BIDS[:3], "0 4 1 1 bids 20:6:2:1.0 10:5:1:0.0 9:5:1:0.1"], 4, None, ["9:5:1:0.1"], [""]),
    ]
    for given, lines, line, other, reply, due in cases:
        _, verdict = make.judged(given, lines)
        marks = [verdict[side] and [field for field, differs in verdict[side] if differs] for side in ("reply", "due")]
        make.tally.check(
            (verdict["line"], verdict["other"], *marks) == (line, other, reply, due),
            f"{verdict}, not {line}, {other}, {reply}, {due}",
        )
        if reply:
            shown = " ".join(field for field, _ in verdict["reply"] if field)
            make.tally.check(shown == lines[line - 1].split(" ", 4)[4], f"the whole reply: {shown}")


def refused(make: Maker, _: Path) -> None:
    """what is no history, or not the verdict's"""
    of_another = make.verdict(
        (EXAMPLES / "contended.csv").read_bytes(), "\n".join(changed(8, "highest=30", "highest=31")).encode() + b"\n"
    )
    cases = [
        [b""],
        [b"0,0,item 0.0\n"],
        [b"the history replays\n"],
        [CONTENDED, of_another],
        [CONTENDED, b"line 9: 0,0 stands in no script\n"],
    ]
    for contents in cases:
        got = run([TIMELINE, "--html"], b"".join(contents))
        make.tally.check(
            got.status == 1 and not got.stdout and got.stderr.startswith(b"timeline.py: "),
            f"{contents}: {described(got)}",
        )
    got = run([TIMELINE, "--html", make.folder / "none"])
    make.tally.check(
        got.status == 1 and got.stderr.endswith(b"none: No such file or directory\n"), f"no file: {described(got)}"
    )


def hostile_pages(make: Maker, _: Path) -> None:
    """lines and a file name with tags, templates, controls and bytes that are no text"""
    page = hostile(make)
    document = Document(page)
    wanted = [line.decode(errors="replace") for line in HOSTILE]
    make.tally.check(data_of(page)["history"].split("\n") == wanted, "the lines as they are")
    make.tally.check(
        not document.faults and len(document.root.of_tag("script")) == 4, f"four scripts: {document.faults}"
    )
    title = "Timeline of " + HOSTILE_NAME.decode(errors="replace")
    make.tally.check(
        [element.text() for tag in ("title", "h1") for element in document.root.of_tag(tag)] == [title] * 2,
        "the name as it is",
    )
    make.tally.check("<" not in document.root.by_id("data").text(), "no tag can begin in the data")


def hostile(make: Maker) -> str:
    return make.page(b"".join(line + b"\n" for line in HOSTILE), name=os.fsdecode(HOSTILE_NAME))


@functools.cache
def large_history(program: Path) -> bytes:
    load = run([built("rubis_load"), f"--requests={LARGE}", "--workers=4", "--skew=100", "--views=40"]).stdout
    return run([program, "--workers=4", "--split=512", "--history"], load).stdout


def spent() -> float:
    """Processor seconds of what has run and ended."""
    of_children = resource.getrusage(resource.RUSAGE_CHILDREN)
    return of_children.ru_utime + of_children.ru_stime


def large_pages(make: Maker, program: Path) -> None:
    """100,000 lines in bounded time and size"""
    history = large_history(program)
    before = spent()
    page = make.page(history)
    took = spent() - before
    data = data_of(page)
    make.tally.check(
        data["history"].encode() + b"\n" == history and history.count(b"\n") == LARGE, "each line of a large history"
    )
    make.tally.check(took < SECONDS, f"{LARGE} lines took {took:.1f} processor seconds, of at most {SECONDS}")
    most = len(history) + LARGE + 16 * len(data["stashed"]) + (64 << 10)
    make.tally.check(data["stashed"] != [] and len(page) <= most, f"the page has {len(page)} bytes, of at most {most}")


def pressed(*keys: str) -> str:
    return "".join(
        f'byId("lanes").dispatchEvent(new KeyboardEvent("keydown", {{key: {json.dumps(key)}}}));' for key in keys
    )


def searched(query: str) -> str:
    return f'byId("search").value = {json.dumps(query)}; byId("search").dispatchEvent(new Event("input"));'


def wheeled(delta: int) -> str:
    return f'byId("lanes").dispatchEvent(new WheelEvent("wheel", {{deltaY: {delta}, clientX: 640, cancelable: true}}));'


def in_a_browser(make: Maker, program: Path) -> None:
    """what Chromium draws of small, wrong, hostile and large histories, and what keys, the wheel and a search show"""
    browser = Browser(make.tally, make.folder)
    if browser.command is None:
        make.tally.skip("pages in a browser", "there is no Chromium")
        return
    drawn_small(make, browser)
    drawn_narrow(make, browser)
    drawn_run(make, browser, run([program, *OF_SKEWED], SKEWED.read_bytes()).stdout)
    drawn_wrong(make, browser)
    drawn_hostile(make, browser)
    drawn_large(make, browser, make.page(large_history(program)))


def drawn_small(make: Maker, browser: Browser) -> None:
    check, report = make.tally.check, (EXAMPLES / "contended.report").read_bytes()
    root = browser.opened(make.page(CONTENDED, report=report), MEASURE)
    boxes = [(int(box.attributes["data-line"]), box.of_tag("rect")[0].attributes) for box in root.of_class("box")]
    kinds = ["store", "view", "store", "view", "store", "store", "store", "view late"]
    check([(number, shape["class"]) for number, shape in boxes] == list(enumerate(kinds, 1)), f"boxes: {boxes}")
    sizes = json.loads(root.of_tag("body")[0].attributes["data-sizes"])
    check(
        len(sizes) == 8 and all(width > 50 and height > 20 for width, height in sizes),
        f"sizes that boxes have on the page: {sizes}",
    )
    places = [(float(shape["x"]), float(shape["y"])) for _, shape in boxes]
    check(places == sorted(places) and len(set(places)) == 8, f"from left to right, and down: {places}")
    circles = [
        (circle.attributes["data-line"], float(circle.of_tag("circle")[0].attributes["cx"]))
        for circle in root.of_class("stashing")
    ]
    check(
        [line for line, _ in circles] == ["8"] and places[5][0] < circles[0][1] < places[6][0],
        f"circles: {circles}, {places}",
    )
    texts = [element.text() for element in root.by_id("lanes").of_tag("text")]
    for words in (
        "worker 0",
        "worker 1",
        "0: joined",
        "1: split",
        "2: joined",
        "hot: i0.0 c0",
        "bid 0.1",
        "line 5",
        "viewitem",
    ):
        check(texts.count(words) == 1, f"{words} once in {texts}")
    rows = [[cell.text() for cell in row.of_tag("span")] for row in root.of_class("row")]
    wanted = [[str(number), *line.split(" ", 4)] for number, line in enumerate(CONTENDED.decode().splitlines(), 1)]
    for row, asked in zip(wanted, ["", "", "", "", "", "", "", "1"]):
        row.insert(5, asked)
    check(rows == wanted, f"the list: {rows}")
    check(
        root.by_id("facts").text() == "8 lines, 2 workers, 3 phases, 5 stores, 3 views, 0 refused, 1 stashed.",
        root.by_id("facts").text(),
    )


def drawn_narrow(make: Maker, browser: Browser) -> None:
    page = make.page(CONTENDED)
    for width, rows in ROWS_OF_TOOLS.items():
        root = browser.opened(page, NARROW, width=width)
        found = json.loads(root.of_tag("body")[0].attributes["data-narrow"])
        make.tally.check(found == {"cut": [], "rows": rows}, f"a page of {width} pixels: {found}")


def drawn_run(make: Maker, browser: Browser, history: bytes) -> None:
    lines, root = history.decode().splitlines(), browser.opened(make.page(history), width=4000)
    shown, late = {}, {}
    for box in root.of_class("box"):
        shape = box.of_tag("rect")[0].attributes
        shown[lines[int(box.attributes["data-line"]) - 1]] = float(shape["x"]) + float(shape["width"]) / 2
    for circle in root.of_class("stashing"):
        _, _, worker, index, _ = lines[int(circle.attributes["data-line"]) - 1].split(" ", 4)
        late[f"index {index} of worker {worker}, stashed"] = float(circle.of_tag("circle")[0].attributes["cx"])
    make.tally.check(list(shown) == lines and late != {}, f"{len(shown)} boxes of {len(lines)} lines")
    make.tally.check(list(shown.values()) == sorted(shown.values()), "the serial order from left to right")
    in_order(make.tally, shown, late)


def drawn_wrong(make: Maker, browser: Browser) -> None:
    page, _ = make.judged((EXAMPLES / "contended.csv").read_bytes(), changed(8, "highest=30", "highest=31"))
    root, check = browser.opened(page), make.tally.check
    marks = [mark.text() for mark in root.by_id("verdict").of_tag("mark")]
    check(
        marks == ["highest=31", "highest=30"] and "hidden" not in root.by_id("verdict").attributes,
        f"marks of the verdict: {marks}",
    )
    rows = [row for row in root.of_class("row") if row.of_tag("mark")]
    check(
        [row.attributes["id"] for row in rows] == ["line-8"] and rows[0].of_tag("mark")[0].text() == "highest=31",
        "the mark in the list",
    )
    wrong = [box.attributes["data-line"] for box in root.of_class("box") if box.of_class("is-wrong")]
    check(wrong == ["8"] and "\u2717 line 8" in root.by_id("lanes").text(), f"the wrong box: {wrong}")
    check(
        root.by_id("told").text().startswith("line 8: phase 2, number 1, worker 0, index 3"),
        "the wrong line is told of",
    )


def drawn_hostile(make: Maker, browser: Browser) -> None:
    root, check = browser.opened(hostile(make)), make.tally.check
    check(not root.of_tag("img") and "taken" not in root.of_tag("title")[0].text(), "no name has made an element")
    shown = [row.of_tag("span")[-1].text() for row in root.of_class("row")]
    check(
        len(shown) == len(HOSTILE) and shown[1] == "viewitem name=<!--<script> -->" and shown[6] == "</script>",
        f"names as they are: {shown}",
    )


def drawn_large(make: Maker, browser: Browser, page: str) -> None:
    data, check = data_of(page), make.tally.check
    lines, late = data["history"].split("\n"), [at + 1 for at, _ in data["stashed"]]
    bids = [number for number, line in enumerate(lines, 1) if line.endswith(" bid 2.77")]
    stages = [
        "",
        wheeled(-6000) + pressed("End"),
        searched("bid 2.77") + pressed("n"),
        searched("") + pressed("Home", "d", "+", "d", "0"),
    ]
    root = browser.opened(page, SEE + "see();".join(stages) + "see();")
    afar, near, found, again = json.loads(root.of_tag("body")[0].attributes["data-seen"])
    check(root.by_id("facts").text().startswith("100,000 lines, 4 workers"), root.by_id("facts").text())
    check(afar["elements"] < 2000 and not afar["boxes"], f"from afar there are shares: {afar}")
    check(near["boxes"] and near["elements"] < 8000, f"from near there are boxes, and not all: {near['elements']}")
    check("line-100000" in near["rows"] and len(near["rows"]) < 100, f"the list goes to its end: {near['rows']}")
    check(len(bids) == 1 and found["boxes"] == bids, f"the bid {bids} is found, and only it is not dim: {found}")
    check(
        (found["told"].split(":")[0], found["found"]) == (f"line {bids[0]}", "1 of 1 match"),
        f"what is told of it: {found}",
    )
    check(
        again["told"].startswith(f"line {late[1]}: ") and not again["boxes"],
        f"the second stashed request, and the whole run: {again}",
    )


def main() -> None:
    parser = parser_of(__doc__)
    parser.add_argument("checker", type=executable, nargs="?", default=str(built("rubis_check")))
    parser.add_argument("program", type=executable, nargs="?", default=str(BUILT))
    options = parser.parse_args()
    tally = Tally()
    with TemporaryDirectory(ignore_cleanup_errors=True) as folder:
        make = Maker(tally, options.checker, Path(folder))
        for check in (
            pictures,
            whole_pages,
            readable_by_all,
            verdicts,
            refused,
            hostile_pages,
            large_pages,
            in_a_browser,
        ):
            tally.tell(check, make, options.program)
    tally.finish()


if __name__ == "__main__":
    sys.exit(main())
