"""The plots of bench/run, drawn from its figures."""
import re
from textwrap import wrap
from typing import Iterable, Iterator, NamedTuple

from axes import WIDTH, Axis, decades, frame, heading, mark, path, rounds, short, spread, steps
from cells import loads_of
from figures import ALONE, AT_ONCE, AUCTION, PHASES, POSTGRES_LOGGED, REDIS, REDIS_LOGGED, SHARDS, UNSPLIT
from figures import DELAY, EXECUTING, LATEST, MOST_OF_PARTS, WHOLE_RATE, Figure, live_words
from measures import BIDDING
from svg import BLUE, BROWN, GREEN, GREY, NAVY, RED, ROSE, UMBER, VIOLET, line, picture, text


class Style(NamedTuple):
    colour: str
    corners: int
    width: float = 2.0
    dashes: str = ""


class Origin(NamedTuple):
    """Of figures: date and machine, and the command."""

    where: str
    how: str


class Point(NamedTuple):
    """A place of an axis, the value there, and its range."""

    at: float
    value: float
    low: float
    high: float


# Of a legend: words, perhaps in lines, and the style of their line.
Entry = tuple[str, Style]

STYLES = {
    AUCTION: Style(RED, 0, 3),
    UNSPLIT: Style(ROSE, 0),
    PHASES: Style(NAVY, -4),
    SHARDS: Style(BLUE, 3),
    ALONE: Style(BROWN, 4),
}

# What the legend adds to a system's name.
GLOSSES = {AUCTION: "proved, with a history", PHASES: "no history", ALONE: "one thread performs"}

# What the plot by workers shows; the tables have all.
SHOWN = (AUCTION, UNSPLIT, PHASES, SHARDS, ALONE)

PROCESSORS = re.compile(r"on (\d+) (?:virtual )?processors")

MEASURED = re.compile(r"(?m)^Measured on (.*), in \d+ minutes, with\n\n    (.*)$")


def origin_of(page: str) -> Origin:
    """What the page of the figures says of them."""
    found = MEASURED.search(page)
    return Origin(found[1], found[2]) if found else Origin("", "")


# How many letters a line of the foot has.
LINE = 80


def foot(top: float, origin: Origin, bars: str = "") -> tuple[list[str], float]:
    """Below all: date and machine, the command, and what bars are; and where the picture ends."""
    lines = [*wrap(origin.where + (f".{bars}" if bars else ""), LINE), *wrap(origin.how, LINE)]
    drawn = [text(12, top + at * 18, words, anchor="start", fill=GREY) for at, words in enumerate(lines)]
    return drawn, top + 18 * len(lines)


def legend(system: str) -> str:
    """A system's name for a legend, in two lines if it has a gloss."""
    return f"{system}\n({GLOSSES[system]})" if system in GLOSSES else system


def load_title(name: str) -> str:
    return f"{name}, {BIDDING.views} % views" if name == BIDDING.name else name


def entries(names: Iterable[Entry], left: float, top: float) -> Iterator[str]:
    """A legend."""
    y = top
    for words, style in names:
        drawn = path([(left, y), (left + 34, y)], style.colour, style.width, style.dashes)
        yield drawn + mark(left + 17, y, style.colour, style.corners)
        for part in words.split("\n"):
            yield text(left + 44, y + 5, part, anchor="start")
            y += 19
        y += 5


def height_of(names: Iterable[Entry]) -> int:
    """How high the legend of these names is."""
    return sum(24 + 19 * words.count("\n") for words, _ in names)


def curve(across: Axis, up: Axis, points: list[Point], style: Style) -> Iterator[str]:
    """Lines between points, each with the bar of its tries where they differ."""
    drawn = [(across.at(point.at), up.at(point.value)) for point in points]
    if drawn:
        yield path(drawn, style.colour, style.width, style.dashes)
    for at, _, low, high in points:
        if low < high:
            yield spread(across.at(at), up.at(low), up.at(high), style.colour)
    yield from (mark(x, y, style.colour, style.corners) for x, y in drawn)


def bars_said(rows: Iterable[Figure]) -> str:
    """What a picture says of its bars, if it has any."""
    return " Bars: ranges of the tries." if any(row.low < row.high for row in rows) else ""


def in_millions(at: float, row: Figure) -> Point:
    return Point(at, row.value / 1e6, row.low / 1e6, row.high / 1e6)


# A title, and what stands below it.
BY_WORKERS = "Throughput of whole commands by number of workers"
IN_MILLIONS = "millions of requests per second (higher is better; scales differ)"

# How large the axes of a panel are, and how far apart panels are, two in a line.
ACROSS, UP, APART, BELOW = 248, 190, 296, 292


def place_of(at: int) -> tuple[int, int]:
    """The left and lower end of a panel's axes."""
    return 40 + at % 2 * APART, 292 + at // 2 * BELOW


def panel(at: int, rows: list[Figure], title: str, label: str) -> tuple[Axis, Axis, list[str]]:
    """The axes of a panel, and its frame: millions of requests by number of workers, with a scale of its own."""
    left, bottom = place_of(at)
    counts, tics = sorted({row.workers for row in rows}), steps(max(row.high for row in rows) / 1e6)
    across = Axis(counts[0] * 0.85, counts[-1] * 1.15, left, left + ACROSS, True)
    up = Axis(0, tics[-1], bottom, bottom - UP)
    drawn = frame(
        across, up, [(count, str(count)) for count in counts], [(tic, f"{tic:g}") for tic in tics], (label, "")
    )
    return across, up, [*drawn, text(left + ACROSS / 2, bottom - UP - 22, title, weight="bold")]


def by_workers(rows: list[Figure], origin: Origin) -> str | None:
    """A panel for each load, and then the legend."""
    rows = [row for row in rows if row.measure == WHOLE_RATE and row.system in SHOWN]
    if not rows:
        return None
    loads, parts = loads_of(rows), heading(BY_WORKERS, IN_MILLIONS)
    for at, load in enumerate(loads):
        own = [row for row in rows if row.load == load]
        across, up, drawn = panel(at, own, load_title(load), "workers")
        parts += [*drawn, *processors(across, up, origin)]
        for system in SHOWN:
            points = sorted(in_millions(row.workers, row) for row in own if row.system == system)
            parts += curve(across, up, points, STYLES[system])
    left, bottom = place_of(len(loads))
    present = [system for system in SHOWN if any(row.system == system for row in rows)]
    parts += entries([(legend(system), STYLES[system]) for system in present], left, bottom - UP)
    bars = bars_said(rows)
    last, end = foot(bottom + 76, origin, bars)
    title = f"{BY_WORKERS} (higher is better; each panel has a scale of its own)"
    about = f"A panel for each of {', '.join(loads)}; a line for each system. figures.csv has the figures.{bars}"
    return picture(WIDTH, end, title, about, parts + last)


def processors(across: Axis, up: Axis, origin: Origin) -> Iterator[str]:
    """A mark at as many workers as the machine has processors, if the page says that."""
    found = PROCESSORS.search(origin.where)
    if found and across.least < int(found[1]) < across.most:
        x = across.at(int(found[1]))
        yield line(x, up.begin, x, up.end, GREY, 1, "2 3")
        yield text(x, up.end - 4, f"{found[1]} processors", fill=GREY)


def by_skew(rows: list[Figure], origin: Origin) -> str | None:
    """Bids on one item are another load, so no line leads to them."""
    most = max(row.workers for row in rows)
    rows = [row for row in rows if row.measure == WHOLE_RATE and row.workers == most]
    loads = loads_of(rows)
    points = {
        system: [in_millions(loads.index(row.load), row) for row in rows if row.system == system] for system in SHOWN
    }
    shown = [system for system in SHOWN if points[system]]
    if not shown:
        return None
    tics, last_load = steps(max(point.high for system in shown for point in points[system])), len(loads) - 1
    across, up = Axis(-0.2, len(loads) - 0.8, 72, 580), Axis(0, tics[-1], 390, 70)
    exponents = [load.split("exponent ")[-1].replace("bids on ", "") for load in loads]
    labels = (
        "exponent of Zipf's law (0: all items alike);\nlast, all bids on one item",
        "millions of requests per second",
    )
    parts = [*frame(across, up, enumerate(exponents), [(tic, f"{tic:g}") for tic in tics], labels)]
    for system in shown:
        for is_last in (False, True):
            part = [point for point in points[system] if (point.at == last_load) == is_last]
            parts += curve(across, up, part, STYLES[system])
    names = [(legend(system).replace("\n", " "), STYLES[system]) for system in shown]
    bars = bars_said(rows)
    last, end = foot(492 + height_of(names), origin, bars)
    title, under = "Throughput of whole commands by skew", f"{most} workers bid on 10,000 items (higher is better)"
    about = (
        f"A line for each of {', '.join(shown)}, over the exponent of Zipf's law. figures.csv has the figures.{bars}"
    )
    drawn = [*heading(title, under), *parts, *entries(names, 72, 476), *last]
    return picture(WIDTH, end, f"{title}: {under}", about, drawn)


def by_requests(rows: list[Figure], origin: Origin) -> str:
    loads = loads_of(rows)
    tics, up_tics = steps(max(row.requests for row in rows) / 1000), steps(max(row.value for row in rows))
    across, up = Axis(0, tics[-1], 72, 570), Axis(0, up_tics[-1], 390, 70)
    labels = "thousands of requests", "megabytes"
    parts = [*frame(across, up, [(tic, f"{tic:,.0f}") for tic in tics], [(tic, f"{tic:g}") for tic in up_tics], labels)]
    names = []
    for load, dashes in zip(loads, ("", "7 4")):
        for system in (AUCTION, PHASES):
            own = [row for row in rows if row.load == load and row.system == system]
            if own:
                style = STYLES[system]._replace(dashes=dashes)
                names.append((f"{system}: {load_title(load)}", style))
                points = [Point(row.requests / 1000, row.value, row.value, row.value) for row in own]
                parts += curve(across, up, points, style)
    last, end = foot(474 + height_of(names), origin)
    title, under = f"Peak memory of the whole command, {rows[0].workers} workers", "(lower is better)"
    over = f"over the number of requests: {'; '.join(loads)}"
    about = f"A line for each system and load, {over}. figures.csv has the figures."
    drawn = [*heading(title, under), *parts, *entries(names, 72, 458), *last]
    return picture(WIDTH, end, f"{title} {under}", about, drawn)


class Delay(NamedTuple):
    """Of a split quota the throughput, and at that the milliseconds until a stashed view is answered."""

    split: int
    rate: Figure
    median: float
    latest: float


def by_delay(rows: list[Figure], origin: Origin) -> str | None:
    """Throughput against the time until a stashed view is answered, a point for each split quota."""
    most = max(row.workers for row in rows)
    rows = [row for row in rows if row.workers == most]
    is_timed = any(row.measure == EXECUTING for row in rows)
    delays = [delay_of(rows, split) for split in quotas_of(rows)] if is_timed else []
    if not delays:
        return None
    tics = rounds([value for delay in delays for value in (delay.median, delay.latest)])
    up_tics = steps(max(delay.rate.high for delay in delays))
    across, up = Axis(tics[0], tics[-1], 72, 580, True), Axis(0, up_tics[-1], 390, 70)
    below = "milliseconds until a stashed view is answered (logarithmic):\nmedian, and a line to the 99th percentile"
    labels = below, "requests per second"
    parts = [*frame(across, up, [(tic, f"{tic:g}") for tic in tics], [(tic, short(tic)) for tic in up_tics], labels)]
    style = STYLES[AUCTION]
    for split, rate, median, latest in delays:
        x, y, end = across.at(median), up.at(rate.value), across.at(latest)
        parts += [line(x, y, end, y, style.colour, 1.5), line(end, y - 4, end, y + 4, style.colour, 1.5)]
        if rate.low < rate.high:
            parts.append(spread(x, up.at(rate.low), up.at(rate.high), style.colour))
        parts += [mark(x, y, style.colour, 0), text(x + 8, y + 19, str(split), anchor="start")]
    bars = bars_said(rows)
    last, bottom = foot(516, origin, bars)
    title, better = "Throughput against the delay of stashed views", "(up and left is better)"
    under = f"{rows[0].load}, executing, {rows[0].workers} workers {better}"
    quotas = ", ".join(str(delay.split) for delay in delays)
    about = f"A point for each split quota: {quotas}. figures.csv has the figures.{bars}"
    key = entries([("the number at a point: --split", style)], 72, 476)
    return picture(WIDTH, bottom, f"{title} {better}", about, [*heading(title, under), *parts, *key, *last])


def quotas_of(rows: list[Figure]) -> list[int]:
    """The split quotas of which some delay is known."""
    return list(dict.fromkeys(row.split for row in rows if row.measure == DELAY))


def delay_of(rows: list[Figure], split: int) -> Delay:
    rate, *delays = (
        next(row for row in rows if row.split == split and row.measure == measure)
        for measure in (EXECUTING, DELAY, LATEST)
    )
    return Delay(split, rate, *(max(delay.value, 1) / rate.value * 1e3 for delay in delays))


# What the plot of parts has a level line for, whatever the parts, in these colours.
LEVELS = {AT_ONCE: RED, REDIS: GREEN, REDIS_LOGGED: VIOLET, POSTGRES_LOGGED: UMBER}
LEVEL_NAMES = {AT_ONCE: "without --live: all read first"}

# What has parts, and whether with a log.
SERVED = {"--live N": False, "--live N --log": True}


def by_parts(rows: list[Figure], origin: Origin) -> str | None:
    """Throughput by the most requests of a part, with a log and without; a level line for what has no parts."""
    rates = {row.system: row for row in rows if row.measure == WHOLE_RATE}
    served = {
        words: [
            (most, rates[live_words(most, is_logged)]) for most in MOST_OF_PARTS if live_words(most, is_logged) in rates
        ]
        for words, is_logged in SERVED.items()
    }
    if not any(served.values()):
        return None
    tics = decades([row.value for row in rates.values()])
    across, up = Axis(0.8, MOST_OF_PARTS[-1] * 1.25, 72, 584, True), Axis(tics[0], tics[-1], 390, 70, True)
    below = "N, the most requests of a batch (logarithmic);\ndashed: no such batches; databases over sockets"
    counts = [(most, str(most)) for most in MOST_OF_PARTS]
    labels = below, "requests per second (logarithmic)"
    parts = [*frame(across, up, counts, [(tic, short(tic)) for tic in tics], labels)]
    names = list(zip(SERVED, (STYLES[AUCTION], STYLES[PHASES])))
    for words, style in names:
        points = [Point(most, row.value, row.low, row.high) for most, row in served[words]]
        parts += curve(across, up, points, style)
    levels = sorted((system for system in LEVELS if system in rates), key=lambda system: -rates[system].value)
    parts += level_lines(across, up, [(up.at(rates[system].value), system) for system in levels])
    bars = bars_said(rows)
    last, end = foot(492 + height_of(names), origin, bars)
    title, under = "Throughput by batch size", "one worker, many requests at once"
    level = f"level lines for {', '.join(levels)}"
    about = f"A line with a log and one without over N, and {level}. figures.csv has the figures.{bars}"
    drawn = [*heading(title, under), *parts, *entries(names, 72, 476), *last]
    return picture(WIDTH, end, f"{title}: {under}", about, drawn)


def level_lines(across: Axis, up: Axis, levels: list[tuple[float, str]]) -> Iterator[str]:
    """From the top: each with its name above, or below if the name of the line above is near."""
    last = up.end
    for y, system in levels:
        name, below = LEVEL_NAMES.get(system, system), y + 16
        yield path([(across.begin, y), (across.end, y)], LEVELS[system], 1.5, "6 4")
        yield text(across.end - 6, y - 5 if y - last > 22 else below, name, anchor="end", fill=LEVELS[system])
        last = y


# What draws the plot of a table, and its file's name.
DRAWN = {"workers": by_workers, "skew": by_skew, "memory": by_requests, "delay": by_delay, "live": by_parts}


def all_plots(rows: list[Figure], page: str) -> Iterator[tuple[str, str]]:
    """Each plot with its name; a table that was not measured has none."""
    for name, draw in DRAWN.items():
        own = [row for row in rows if row.table == name]
        plot = draw(own, origin_of(page)) if own else None
        if plot:
            yield name, plot
