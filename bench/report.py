"""Tables, figures.csv and plots of what bench/run measured."""
import csv
import datetime
import os
import platform
import re
import subprocess
import sys
import tempfile
from argparse import Namespace
from typing import Iterator

import claims
import figures
import lite
import measures
import plots
import redis_server
from cells import count, figure, heads_of, in_workers, loads_of, millions, ranged, table, times_if_apart, two, value
from cells import values
from figures import ALL_THREADS, AUCTION, CLIENT_WAITS, CLIENTS_RATE, DATABASES, EXECUTING, MEMORY, OPENING, PROCESSORS
from figures import RUN, SECONDS, SYSTEMS, WAITS, WHOLE_RATE, Figure, live_words
from measures import BIDDING, ONE_ITEM, UNIFORM
from programs import ROOT

README, PERFORMANCE, FOLDER = "README.md", "docs/PERFORMANCE.md", "docs/performance"
FIGURES = f"{FOLDER}/figures.csv"

START, END = "<!-- bench/run: {} -->", "<!-- end: {} -->"

LEFT_OUT = "Not measured this time."

# The name and the text of what a page has between markers.
Part = tuple[str, str]


def machine() -> str:
    """The processor's name, how many there are, how much memory, the kernel, and the file system of logs."""
    with open("/proc/cpuinfo") as text:
        processors = text.read()
    with open("/proc/meminfo") as text:
        kilobytes = int(re.search(r"^MemTotal:\s*(\d+)", text.read()).group(1))
    names = re.findall(r"(?m)^model name\s*: (.*)$", processors) or [platform.machine()]
    is_virtual = re.search(r"(?m)^flags\s*:.*\bhypervisor\b", processors) is not None
    kernel = platform.release().partition("-")[0]
    return (
        f"{os.cpu_count()} {'virtual ' * is_virtual}processors ({names[0]}), {kilobytes / 2**20:.0f} GB, "
        f"Linux {kernel}, {file_system(tempfile.gettempdir())}"
    )


def file_system(folder: str) -> str:
    """The kind of file system that a folder is on."""
    with open("/proc/mounts") as text:
        mounts = [line.split()[1:3] for line in text]
    return max((len(place), kind) for place, kind in mounts if os.path.commonpath([folder, place]) == place)[1]


def commit() -> str:
    """The commit that is checked out, with a plus if the crates have changes that are in none."""
    found = git("rev-parse", "--short=8", "HEAD").strip() or "unknown"
    return found + "+" * bool(git("status", "--porcelain", "crates"))


def changes_since_measured() -> str:
    """What to say if the sources of crates are others than those that the page's figures are of."""
    found = re.search(r"at commit (\w+)", origin(written(PERFORMANCE, [])))
    later = git("rev-list", f"{found[1]}..HEAD", "--", ":(glob)crates/*/src/**").split() if found else []
    return f"{len(later)} commits have changed crates/*/src since {found[1]}, which the figures are of" if later else ""


def git(*words: str) -> str:
    quiet = {"stdout": subprocess.PIPE, "stderr": subprocess.DEVNULL, "text": True}
    return subprocess.run(["git", *words], cwd=ROOT, **quiet).stdout


def command(asked: Namespace) -> str:
    numbers = (
        f"--requests {asked.requests} --tries {asked.tries} --minutes {asked.minutes:g} --seconds {asked.seconds:g}"
    )
    words = ["bench/run", *(["--fast"] if asked.fast else []), numbers, f"--workers {asked.workers}"]
    lists = {"--skip": asked.skip, "--only": asked.only}
    return " ".join(words + [f"{option} {','.join(chosen)}" for option, chosen in lists.items() if chosen])


def present(rows: list[Figure]) -> list[str]:
    return [system for system in SYSTEMS if values(rows, system=system)]


# What the pages call the row below Fundreivo's that has its gain by workers.
OVER_ONE = "over one worker"

Column = dict[str, str | int]


def rate_lines(rows: list[Figure], columns: list[Column]) -> list[list[str]]:
    """For each system its rates in these columns."""
    own = {system: values(rows, system=system) for system in present(rows)}
    return [[system, *(millions(figure(found, **column)) for column in columns)] for system, found in own.items()]


def over_one(rows: list[Figure], columns: list[Column]) -> list[str]:
    own = values(rows, system=AUCTION)
    return [times_if_apart(figure(own, **column), figure(own, **{**column, "workers": 1})) for column in columns]


def by_workers(rows: list[Figure]) -> str:
    """All systems with two numbers of workers, and below the auction's rates what they are worth over one worker."""
    shown, rows = sorted({1, claims.most_workers(rows)}), values(rows, table="workers", measure=WHOLE_RATE)
    columns: list[Column] = [{"load": load, "workers": workers} for load in loads_of(rows) for workers in shown]
    heads = heads_of((column["load"], column["workers"]) for column in columns)
    gains = [gain if column["workers"] > 1 else "" for column, gain in zip(columns, over_one(rows, columns))]
    own, *others = rate_lines(rows, columns)
    return table(["Millions of requests per second, whole command", *heads], [own, [OVER_ONE, *gains], *others])


def executing(rows: list[Figure]) -> str:
    """The auction and the databases, load by load."""
    rows = values(rows, table="executing", measure=EXECUTING)
    most, lines = max(row.workers for row in rows), []
    for system in (AUCTION, *DATABASES):
        if own := values(rows, system=system, workers=most):
            rates = [f"{millions(row)} on {claims.load_in_words(row)}" for row in own]
            lines.append(f"- {system}: {claims.listed(rates)}")
    return "\n".join([f"Millions of requests per second, executing, {in_workers(most)}:\n", *lines]) + "\n"


def plot_alone(rows: list[Figure]) -> str:
    """figures.csv has the figures."""
    return "\n"


def growth(rows: list[Figure]) -> str:
    """By how much the auction's memory grows with each request."""
    grown = []
    for load in (UNIFORM, BIDDING):
        found = values(rows, load=load.name, system=AUCTION)
        if len(found) < 2:
            return ""
        least, most = min(found, key=lambda row: row.requests), max(found, key=lambda row: row.requests)
        grown.append(round((most.value - least.value) * 1e6 / (most.requests - least.requests), -1))
    of_bid, of_mix = grown
    growing = f"{of_bid:.0f} bytes per bid and {of_mix:.0f} per request of the bidding mix"
    return f"Fundreivo's memory grows by about {growing}.\n"


def memory(rows: list[Figure]) -> str:
    """The plot has the figures by requests."""
    return growth(values(rows, table="memory"))


def checking(rows: list[Figure]) -> str:
    """The longest histories, load by load."""
    rows = values(rows, table="checking")
    most, told = max(row.requests for row in rows), []
    for load in loads_of(rows):
        seconds, size = (figure(rows, load=load, requests=most, measure=measure) for measure in (SECONDS, MEMORY))
        told.append(f"{ranged(seconds)} s and {ranged(size)} MB for the {load}".replace("the bids", "bids"))
    return f"Of {most:,} requests, `rubis_check --order` takes {claims.listed(told)}.\n"


def windows(rows: list[Figure]) -> str:
    """How long a view takes, and a run that is shown to some windows, by the fewest and the most."""
    rows = values(rows, table="windows")
    alone, beside = (values(rows, load=f"windows {where}") for where in ("alone", "beside a run"))
    views = [f"{two(row.value)} ns in {in_windows(row)}" for row in (alone[0], alone[-1])]
    # With one window there is a run without views too, which comes first.
    runs = {row.workers: row.value for row in values(beside, measure=RUN)}
    shown = [f"{two(seconds)} s with {count or 'no'} window{'s' * (count > 1)}" for count, seconds in runs.items()]
    run = f"1,000,000 bids by 4 workers on one item take {claims.listed(shown)}"
    return f"A view takes {claims.listed(views)}.\n{run}.\n"


def in_windows(row: Figure) -> str:
    return f"each of {row.workers} windows" if row.workers > 1 else "one window"


def work(rows: list[Figure]) -> str:
    """What a request takes of each system with one worker, and of the auction with as many as there are processors: a
    measure after the other, each by loads."""
    rows, most = values(rows, table="work"), claims.most_workers(rows)
    there = {(row.system, row.workers) for row in values(rows, measure=PROCESSORS)}
    ways = [way for system in SYSTEMS for way in ((system, 1), (system, most)) if way in there]
    ways = [(system, workers) for system, workers in ways if workers == 1 or system == AUCTION]
    lines = []
    for measure, (name, shown) in OF_WORK.items():
        lines += [[f"**{name}**", *[""] * len(ways)]]
        for load in loads_of(rows):
            own = values(rows, load=load, measure=measure)
            lines.append([load, *(shown(value(own, system=system, workers=workers)) for system, workers in ways)])
    return table(["Of a request", *heads_of(ways)], lines)


# What the table of a request's work has, with names, and how it is written: a count is exact.
OF_WORK = {ALL_THREADS: ("instructions", count), PROCESSORS: ("CPU time, ns", two)}


def live(rows: list[Figure]) -> str:
    """Replies while requests come: how long each takes, how many a second, and in words what memory views take and how
    long a log takes to open. Parts of few requests are in the plot alone."""
    rows = values(rows, table="live")
    only_plotted = {live_words(10, is_logged) for is_logged in (False, True)}
    served = [row for row in values(rows, measure=WHOLE_RATE) if row.system not in only_plotted]
    lines = []
    for row in served:
        waits = (value(rows, system=row.system, measure=measure) for measure in SHOWN_WAITS)
        clients = f", {row.workers} clients" if row.workers > 1 else ""
        lines.append([row.system, *map(two, waits), ranged(row, 1e3) + clients])
    waiting, rates = "µs until a reply, one at a time: median", "Thousands of requests per second, many at once"
    heads = [f"One worker, {served[0].load}", waiting, "99th percentile", rates]
    return table(heads, lines) + kept_small(rows) + opened(rows)


# A session with a log has too few requests for later ones.
SHOWN_WAITS = tuple(WAITS)[:2]


def kept_small(rows: list[Figure]) -> str:
    found = [f"{two(row.value)} MB for {row.requests:,} views" for row in values(rows, measure=MEMORY)]
    return f"\nPeak memory with `--live 1000`: {', '.join(found)}.\n" if found else ""


def opened(rows: list[Figure]) -> str:
    found = values(rows, measure=OPENING)
    return "".join(f"A log of {row.requests:,} rows is opened in {ranged(row)} s.\n" for row in found)


def many_clients(rows: list[Figure]) -> str:
    """For each server the rate by clients, and how long a reply takes."""
    rows = values(rows, table="clients")
    ways, lines = loads_of(rows), []
    for system in dict.fromkeys(row.system for row in rows):
        found = [values(rows, system=system, load=way) for way in ways]
        rates = (ranged(figure(own, measure=CLIENTS_RATE), 1e3) for own in found)
        waits = (" / ".join(two(value(own, measure=wait)) for wait in CLIENT_WAITS) for own in found)
        lines.append([system, *(f"{rate}; {wait} ms" for rate, wait in zip(rates, waits))])
    return table(["Thousands of bids per second on one item; ms until a reply, median / 99th percentile", *ways], lines)


# What the plots show. They stand above tables and sentences.
PLOTS = {
    "workers": "Requests per second of whole commands by number of workers",
    "skew": "Throughput by skew",
    "memory": "Memory by requests",
    "delay": "Throughput against the delay of stashed views, by split quota",
    "live": "Throughput by batch size, with a log and without",
}

# The parts of docs/PERFORMANCE.md, each of the rows of its table.
TABLES = {
    "workers": by_workers,
    "executing": executing,
    "work": work,
    "skew": plot_alone,
    "delay": plot_alone,
    "memory": memory,
    "checking": checking,
    "windows": windows,
    "live": live,
    "clients": many_clients,
}

# Without a figure of one of these measures a table has nothing to show.
NEEDED = {"workers": WHOLE_RATE, "executing": EXECUTING, "work": PROCESSORS, "skew": WHOLE_RATE, "delay": EXECUTING}


def shown_plot(name: str) -> str:
    return f"![{PLOTS[name]}](performance/{name}.svg)\n"


def tables(rows: list[Figure]) -> Iterator[tuple[str, str]]:
    """Each part of docs/PERFORMANCE.md, with its plot."""
    for name, made in TABLES.items():
        plot = f"{shown_plot(name)}\n" if name in PLOTS else ""
        wanted = {"measure": NEEDED[name]} if name in NEEDED else {}
        text = made(rows) if values(rows, table=name, **wanted) else ""
        yield name, plot + text if text else LEFT_OUT


def tries_told(systems: measures.Systems) -> str:
    turns, few = systems.turns, systems.few_tries()
    return (
        f"Whole commands and executing have {turns} tries, for which there was time, interleaved with those of all "
        f"other commands, SQLite and PostgreSQL at most {few}.\n"
        f"Histories, clients, and replies as requests arrive have {few}."
    )


def heading(asked: Namespace, systems: measures.Systems, when: str, seconds: float) -> str:
    """Date, machine, command and how long it took, and what was left out."""
    most = figures.MOST_WORKERS
    lines = [
        f"Measured on {when}, at commit {commit()}, on {machine()}, in {max(1, round(seconds / 60))} minutes, with\n",
        f"    {command(asked)}\n",
        f"{tries_told(systems)}\nWindows, delays, sessions and instructions are measured once.",
        f"LOAD is of `rubis_load` (the referee's with {most} workers), HISTORY of `rubis_auction --history`:\n",
    ]
    for load in (ONE_ITEM, UNIFORM, BIDDING):
        lines.append(f"    rubis_load --requests={asked.requests} --workers={asked.workers} {' '.join(load.words())}")
    lines.append(f"    rubis_auction {' '.join(measures.auction_words(asked.workers))} --fast < LOAD")
    if "referee" in systems.built:
        words = " ".join(measures.auction_words(most))
        lines.append(f"    rubis_check {words} --order --history=HISTORY < LOAD")
    if "windows" in systems.built:
        lines.append("    example_watch --windows=W --views=V --bids=B")
    lines.append("")
    if systems.server:
        part = f"as many of the first {systems.few():,} requests of a load as it can in about {asked.seconds:g} s"
        lines.append(f"PostgreSQL {systems.server_version} performs {part}.")
    if redis_server.is_there() and "redis" not in asked.skip:
        lines.append(f"Redis is {redis_server.version()}.")
    if "sqlite" not in asked.skip:
        spent = f"{systems.empty_statement / 1000:.2f} µs"
        lines.append(f"SQLite {lite.sqlite3.sqlite_version} performs the first {systems.few():,}.")
        lines.append(
            f"An empty statement, called from Python, takes {spent}; a bid is five statements, a view one or four."
        )
    return "\n".join(lines + systems.said) + "\n"


def put_between(text: str, name: str, new: str) -> str:
    """The text with a new part between the markers of this name, in lines of its own where they stand so."""
    start, end = START.format(name), END.format(name)
    if text.count(start) != 1 or end not in text:
        sys.exit(f"the markers {start} and {end} are wanted once")
    before, rest = text.split(start)
    new = new.strip("\n")
    own_lines = f"\n\n{new}\n\n" if rest.startswith("\n") else new
    return before + start + own_lines + rest[rest.index(end) :]


def written(page: str, parts: list[Part]) -> str:
    """A page of the repository with these parts."""
    with open(f"{ROOT}/{page}") as text:
        page = text.read()
    for name, part in parts:
        page = put_between(page, name, part)
    return page


def pages(rows: list[Figure], told: str) -> dict[str, list[Part]]:
    """The parts that each page has of these figures, of whose origin this is told."""
    readme = [(name, made(rows) or LEFT_OUT) for name, made in claims.OF_README.items()]
    performance = [(name, made(rows) or LEFT_OUT) for name, made in claims.OF_PERFORMANCE.items()]
    return {README: [*readme, ("origin", origin(told))], PERFORMANCE: [*performance, *tables(rows)]}


# The day and the commit of the figures, as the heading has them.
ORIGIN = re.compile(r"(?m)^Measured on ([^,]*, at commit \w+\+?),")


def origin(told: str) -> str:
    found = ORIGIN.search(told)
    return found[1] if found else LEFT_OUT


def write_figures(path: str, rows: list[Figure]) -> None:
    with open(path, "w", newline="") as text:
        out = csv.writer(text, lineterminator="\n")
        out.writerow(Figure._fields)
        out.writerows([*row[:-3], *(f"{number:.6g}" for number in row[-3:])] for row in rows)


def read_figures(path: str) -> list[Figure]:
    """The figures of a file; of one try each, where it says nothing of others."""
    with open(path, newline="") as text:
        lines = ({"low": line["value"], "high": line["value"], **line} for line in csv.DictReader(text))
        return [Figure(**{name: figures.KINDS.get(name, int)(word) for name, word in line.items()}) for line in lines]


def stale_parts() -> tuple[list[str], int]:
    """The parts of the pages and the plots that are not what figures.csv makes of them, and how many there are. What
    was left out is none."""
    stale, count = [], 0
    rows = read_figures(f"{ROOT}/{FIGURES}")
    for page, parts in pages(rows, written(PERFORMANCE, [])).items():
        for name, part in parts:
            count += part != LEFT_OUT
            if part != LEFT_OUT and written(page, [(name, part)]) != written(page, []):
                stale.append(f"{page}: {name}")
    for name, plot in plots.all_plots(rows, written(PERFORMANCE, [])):
        count += 1
        path = f"{FOLDER}/{name}.svg"
        if not os.path.exists(f"{ROOT}/{path}") or open(f"{ROOT}/{path}").read() != plot:
            stale.append(path)
    return stale, count


def write_all(asked: Namespace, systems: measures.Systems, rows: list[Figure], seconds: float) -> None:
    """Writes figures, pages and plots below the folder that is asked for."""
    when = datetime.date.today().strftime("%d %B %Y").lstrip("0")
    os.makedirs(f"{asked.out}/{FOLDER}", exist_ok=True)
    write_figures(f"{asked.out}/{FIGURES}", rows)
    write_pages(asked.out, rows, (("heading", heading(asked, systems, when, seconds)),))


def write_pages(out: str, rows: list[Figure], heading_part: tuple[Part, ...] = ()) -> None:
    """Writes pages and plots of these figures; what was left out only below a heading of its own."""
    told = dict(heading_part).get("heading") or written(PERFORMANCE, [])
    for page, parts in pages(rows, told).items():
        own = list(heading_part) if page == PERFORMANCE else []
        text = written(page, own + [(name, part) for name, part in parts if part != LEFT_OUT or heading_part])
        with open(f"{out}/{page}", "w") as file:
            file.write(text)
    with open(f"{out}/{PERFORMANCE}") as file:
        page = file.read()
    for name, plot in plots.all_plots(rows, page):
        with open(f"{out}/{FOLDER}/{name}.svg", "w") as file:
            file.write(plot)


def redraw() -> None:
    """Writes pages and plots anew from figures.csv."""
    write_pages(ROOT, read_figures(f"{ROOT}/{FIGURES}"))
