"""All figures of bench/run, each a row of figures.csv."""
import os
import re
import subprocess
import time
from argparse import Namespace
from concurrent.futures import ThreadPoolExecutor
from typing import Callable, Iterable, Iterator, NamedTuple

import clients
import instructions
import loads
import postgres
import redis_server
import serving
from measures import BIDDING, CATEGORIES, ONE_ITEM, ONE_PASS, PROGRAM, UNIFORM, USERS, VIEWED, Load
from measures import FEW_TRIES, LARGE, MOST_SHARDS, SERVING, SMALL, Policy, Systems, Tries
from programs import in_seconds, say

AUCTION, UNSPLIT = "Fundreivo", "Fundreivo, without splitting"
PHASES, SHARDS, LOCK = "plain Rust, the same phases", "plain Rust, a lock per shard", "plain Rust, one lock"
ALONE, IN_C = "plain Rust, no lock", "C, in one pass"
SQLITE, POSTGRES = "SQLite in memory", "PostgreSQL"
REFEREE = "the referee"

SYSTEMS = (AUCTION, UNSPLIT, PHASES, SHARDS, LOCK, ALONE, IN_C, SQLITE, POSTGRES)

DATABASES = (SQLITE, POSTGRES)

# What a system that is not a database is called on a command line.
MODES = {
    AUCTION: PROGRAM,
    UNSPLIT: PROGRAM,
    PHASES: "phases",
    SHARDS: "shards",
    LOCK: "lock",
    ALONE: "serial",
    IN_C: ONE_PASS,
}

# Of a whole command, from its start to its end, and of executing, from the last bytes of the input to the end.
WHOLE_RATE, EXECUTING = "requests a second, whole command", "requests a second, executing"
# Of a whole command: of processors, for the user and the system, and page faults.
PROCESSORS, FAULTS = "nanoseconds of processors a request", "page faults of 1,000 requests"
SECONDS, MEMORY = "seconds, whole command", "megabytes at most"
RUN, VIEW = "seconds of a run", "nanoseconds a view"
DELAY, LATEST = "requests until a deferred reply, median", "requests until a deferred reply, 99th percentile"
# Of replies while requests come, with a log that is synced and without: systems, and what is measured.
AT_ONCE, REDIS, REDIS_LOGGED = "all read first", "Redis, no log", "Redis, log synced"
POSTGRES_LOGGED = "PostgreSQL, log synced"
WAITS = {
    "microseconds until a reply, median": 0.5,
    "microseconds until a reply, 99th percentile": 0.99,
    "microseconds until a reply, 99.9th percentile": 0.999,
}
OPENING = "seconds to open a log"
# Of many clients of a server.
FRONT, FRONT_LOGGED = "examples/front.py, no log", "examples/front.py, log synced"
SERVERS = {
    FRONT: (clients.Front, False),
    REDIS: (clients.Redis, False),
    FRONT_LOGGED: (clients.Front, True),
    REDIS_LOGGED: (clients.Redis, True),
}
CLIENTS_RATE = "requests a second"
CLIENT_WAITS = ("milliseconds until a reply, median", "milliseconds until a reply, 99th percentile")

# So many requests of a part at most, and in all so many parts: with a log each waits for the disk.
MOST_OF_PARTS, PARTS_UNLOGGED, PARTS_LOGGED = (1, 10, 100, 1000), 100_000, 200

SCRIPTS, SCRIPT_SIZE, HISTORY_SIZE = "seconds for the scripts alone", "megabytes of scripts", "megabytes of history"


# Of how many requests a try is.
REQUESTS = "requests"

# What a request's instructions are for.
INSTRUCTIONS = (
    "reading",
    "of it the kit's reader of records",
    "performing",
    "writing replies, and memory moved or cleared",
)

# Of a whole command: of all threads, and of the one that has most.
ALL_THREADS, LONGEST_THREAD = "instructions", "instructions of the longest thread"

# The auction takes so many workers, and so many rows and requests of each.
MOST_WORKERS, MOST_OF_A_WORKER = 16, 1_000_000


class Figure(NamedTuple):
    table: str
    load: str
    system: str
    workers: int
    skew: int
    joined: int
    split: int
    hot: int
    threshold: int
    shards: int
    requests: int
    measure: str
    value: float
    low: float
    high: float


# The columns that are no whole numbers.
KINDS = {"table": str, "load": str, "system": str, "measure": str, "value": float, "low": float, "high": float}


class Setup(NamedTuple):
    """What is measured: a system with its options at a load."""

    system: str
    load: Load
    workers: int
    requests: int
    policy: Policy = Policy()

    def key(self) -> tuple[str, Load, int, int, Policy]:
        """What it is, by whatever name a table calls it."""
        mode, policy = MODES.get(self.system, self.system), self.policy.of_workers(self.workers)
        return mode, self.load._replace(name=""), self.workers, self.requests, policy

    def ways(self) -> list["Setup"]:
        """What is tried, of which the fastest counts: locks of as many shards as the auction's, and of as many as it
        may have."""
        if self.system != SHARDS:
            return [self]
        return [self, self._replace(policy=self.policy._replace(shards=MOST_SHARDS))]


class Wanted(NamedTuple):
    """A figure of a table."""

    table: str
    setup: Setup
    measure: str

    def way(self) -> str:
        return "executing" if self.measure == EXECUTING else "whole"


def policy_of(system: str) -> Policy:
    return Policy(hot=0) if system == UNSPLIT else Policy()


LOADS = (ONE_ITEM, UNIFORM, BIDDING)


def worker_counts(asked: Namespace, system: str) -> list[int]:
    """C, in one pass, has one script."""
    counts = {1, asked.workers} if asked.fast else {1, 2, 4, 8, MOST_WORKERS, asked.workers}
    return [1] if system == IN_C else sorted(counts)


def one_and_all(asked: Namespace) -> list[int]:
    """One worker, and as many as the tables have that are not by workers."""
    return sorted({1, asked.workers})


def by_workers(asked: Namespace) -> list[Wanted]:
    return [
        Wanted("workers", Setup(system, load, workers, asked.requests, policy_of(system)), measure)
        for load in LOADS
        for system in SYSTEMS
        if system not in DATABASES
        for workers in worker_counts(asked, system)
        for measure in (WHOLE_RATE, MEMORY)
    ]


def executing(asked: Namespace) -> list[Wanted]:
    """C, in one pass, performs each request as it is read."""
    return [
        Wanted("executing", Setup(system, load, workers, asked.requests, policy_of(system)), EXECUTING)
        for load in LOADS
        for system in SYSTEMS
        if system not in (LOCK, IN_C)
        for workers in (one_and_all(asked) if system == AUCTION else [asked.workers])
    ]


def of_processors(asked: Namespace) -> list[Wanted]:
    return [
        Wanted("work", Setup(system, load, workers, asked.requests), measure)
        for load, system, workers in ways_counted(asked)
        for measure in (PROCESSORS, FAULTS)
    ]


def ways_counted(asked: Namespace) -> list[tuple[Load, str, int]]:
    """What has its counts: with one worker all, with more what performs requests on as many threads."""
    counts = sorted({1, asked.workers} | (set() if asked.fast else {8}))
    return [
        (load, system, workers)
        for load in ((ONE_ITEM,) if asked.fast else LOADS)
        for workers in counts
        for system in (AUCTION, PHASES, ALONE, IN_C)
        if workers == 1 or system == AUCTION or system == PHASES and workers == asked.workers
    ]


def skewed(asked: Namespace) -> list[Load]:
    """From all items alike to one item."""
    exponents = (0, 100) if asked.fast else (0, 50, 100, 150, 200)
    loads = [UNIFORM._replace(name=f"bids on 10,000 items, exponent {skew / 100}", skew=skew) for skew in exponents]
    return [*loads, ONE_ITEM]


def by_skew(asked: Namespace) -> list[Wanted]:
    return [
        Wanted("skew", Setup(system, load, asked.workers, asked.requests, policy_of(system)), WHOLE_RATE)
        for load in skewed(asked)
        for system in (AUCTION, UNSPLIT, PHASES, SHARDS, ALONE)
    ]


def of_policy(
    asked: Namespace, table: str, load: Load, policy: Policy, measure: str, workers: int | None = None
) -> Wanted:
    return Wanted(table, Setup(AUCTION, load, workers or asked.workers, asked.requests, policy), measure)


def by_quotas(asked: Namespace) -> list[Wanted]:
    """Of one worker too, and with the program's own quotas without splitting."""
    quotas = (SMALL, LARGE) if asked.fast else (SMALL, (64, 256), (64, 1024), LARGE, (64, 16384), (1024, 4096))
    ways = [(Policy(pair), workers) for pair in quotas for workers in one_and_all(asked)]
    ways.append((Policy(SMALL, 0), asked.workers))
    return [of_policy(asked, "quotas", load, policy, WHOLE_RATE, workers) for load in LOADS for policy, workers in ways]


def by_delay(asked: Namespace) -> list[Wanted]:
    quotas = (64, 4096) if asked.fast else (64, 256, 1024, 4096, 16384)
    return [of_policy(asked, "delay", VIEWED, Policy((64, split)), EXECUTING) for split in quotas]


def by_shards(asked: Namespace) -> list[Wanted]:
    counts = (1, 16) if asked.fast else (1, 2, 4, 8, 16, 32, 64)
    return [of_policy(asked, "shards", UNIFORM, Policy(shards=shards), WHOLE_RATE) for shards in counts]


def request_counts(asked: Namespace, load: Load, workers: int, quarters: tuple[int, ...]) -> list[int]:
    """So many quarters of a load's requests, where the auction takes as many of these workers."""
    counts = (asked.requests // 4 * quarter for quarter in quarters)
    return [requests for requests in counts if (requests + load.items) / workers < MOST_OF_A_WORKER]


def by_requests(asked: Namespace) -> list[Wanted]:
    return [
        Wanted("memory", Setup(system, load, asked.workers, requests), MEMORY)
        for load in (UNIFORM, BIDDING)
        for requests in request_counts(asked, load, asked.workers, (1, 4) if asked.fast else (1, 2, 4, 6, 8))
        for system in (AUCTION, PHASES)
    ]


# What the tables want whose figures are measured together: each setup once, in turns with all others.
TOGETHER = {
    "workers": by_workers,
    "executing": executing,
    "work": of_processors,
    "skew": by_skew,
    "quotas": by_quotas,
    "delay": by_delay,
    "shards": by_shards,
    "memory": by_requests,
}


def measured(systems: Systems, way: str, key: tuple) -> dict[str, float]:
    """What one try of a setup takes, by measures, and of how many requests."""
    mode, load, workers, requests, policy = key
    if way == "executing":
        done, seconds = executed(systems, mode, load, workers, requests, policy)
        return {REQUESTS: done, EXECUTING: done / seconds}
    use = systems.whole(mode, load, workers, requests, policy)
    each = max(1, requests)
    return {
        REQUESTS: requests,
        WHOLE_RATE: requests / use.seconds,
        MEMORY: use.megabytes,
        PROCESSORS: (use.user + use.system) * 1e9 / each,
        FAULTS: use.faults * 1e3 / each,
    }


def executed(systems: Systems, mode: str, load: Load, workers: int, requests: int, policy: Policy) -> tuple[int, float]:
    if mode == SQLITE:
        return systems.lite_executing(load, workers)
    if mode == POSTGRES:
        return systems.postgres_executing(load, workers)
    return systems.executing(mode, load, workers, requests, policy)


def is_there(systems: Systems, setup: Setup) -> bool:
    if setup.system == SQLITE:
        return "sqlite" not in systems.asked.skip
    if setup.system == POSTGRES:
        return systems.server is not None
    return systems.has(MODES[setup.system])


def in_turns(systems: Systems, wanted: list[Wanted]) -> dict[tuple, list[dict[str, float]]]:
    """Of each way and setup that is wanted its tries: each has its first before any has its second. After a few tries
    there is another turn only if there is time for it; an interrupt ends the turns, and those that are done count."""
    asked = systems.asked
    own = sorted({(one.way(), setup.key()) for one in wanted for setup in one.setup.ways()}, key=str)
    told = {one: [] for one in own}
    for turn in range(asked.tries if own else 0):
        begun = time.monotonic()
        say(f"{len(own)} commands, try {turn + 1} of {asked.tries}")
        try:
            found = {one: measured(systems, *one) for one in own if turn < FEW_TRIES or one[1][0] not in DATABASES}
        except KeyboardInterrupt:
            if turn == 0:
                raise
            say("interrupted")
            break
        for one, done in found.items():
            told[one].append(done)
        now = time.monotonic()
        if turn + 1 >= FEW_TRIES and now + (now - begun) > systems.end:
            break
    return told


def figure_of(one: Wanted, told: dict[tuple, list[dict[str, float]]]) -> Figure:
    """A figure of the tries of its setup: of several ways to do that, of those of the fastest."""
    rate = EXECUTING if one.measure == EXECUTING else WHOLE_RATE
    tried = [(setup, told[one.way(), setup.key()]) for setup in one.setup.ways()]
    setup, tries = max(tried, key=lambda pair: Tries.of(done[rate] for done in pair[1]).value)
    found = [done[one.measure] for done in tries]
    found = min(found) if one.measure in (PROCESSORS, FAULTS) else Tries.of(found)
    requests = min(int(done[REQUESTS]) for done in tries)
    return row_of(one.table, setup.load, setup.policy, one.measure, found, setup.workers, requests, setup.system)


def row_of(
    table: str,
    load: Load,
    policy: Policy,
    measure: str,
    found: Tries | float,
    workers: int,
    requests: int,
    system: str = AUCTION,
) -> Figure:
    """A row of figures.csv; what was measured once has no spread."""
    found = found if isinstance(found, Tries) else Tries(found, found, found)
    quotas, hot, threshold, shards = policy.of_workers(workers)
    return Figure(
        table, load.name, system, workers, load.skew, *quotas, hot, threshold, shards, requests, measure, *found
    )


def together(systems: Systems, asked: Namespace, names: list[str]) -> list[Figure]:
    """The figures of the tables of these names."""
    wanted = [one for name in names for one in TOGETHER[name](asked) if is_there(systems, one.setup)]
    told = in_turns(systems, wanted)
    systems.turns = max(map(len, told.values()), default=0)
    return [figure_of(one, told) for one in wanted]


def late_replies(systems: Systems, asked: Namespace) -> Iterator[Figure]:
    """For each split quota, how many requests are answered between one that is stashed and its reply."""
    for setup in (one.setup for one in by_delay(asked)):
        found = sorted(systems.delays(setup.load, setup.workers, setup.requests, setup.policy))
        for measure, part in ((DELAY, 0.5), (LATEST, 0.99)) if found else ():
            wait = serving.part(found, part)
            yield row_of("delay", setup.load, setup.policy, measure, wait, setup.workers, setup.requests)


def checking(systems: Systems, asked: Namespace) -> Iterator[Figure]:
    """The referee over histories of the auction, of as many workers as it has at most."""
    if "referee" not in systems.built:
        return
    for load in (UNIFORM, BIDDING):
        for requests in request_counts(asked, load, MOST_WORKERS, (1, 4) if asked.fast else (1, 4, 16)):
            say(f"{load.name}, {requests} requests, checking")
            told = systems.check(load, MOST_WORKERS, requests)
            for measure, value in zip((SCRIPT_SIZE, HISTORY_SIZE, SECONDS, SCRIPTS, MEMORY), told):
                yield row_of("checking", load, Policy(), measure, value, MOST_WORKERS, requests, REFEREE)


def few_requests(asked: Namespace) -> int:
    """How many requests are counted."""
    return 10_000 if asked.fast else 100_000


def by_instructions(systems: Systems, asked: Namespace) -> Iterator[Figure]:
    if not instructions.is_there():
        return
    requests = few_requests(asked)
    ways = [
        (load, system, policy_of(system))
        for load in ((ONE_ITEM,) if asked.fast else LOADS)
        for system in (AUCTION, UNSPLIT)
        if system == AUCTION or load == ONE_ITEM
    ]
    make_loads(systems, {(load, 1) for load, *_ in ways}, requests)
    counts = at_once(ways, lambda load, system, policy: systems.instructions(load, requests, policy))
    for (load, system, policy), found in zip(ways, counts):
        for measure, value in zip(INSTRUCTIONS, found):
            yield row_of("instructions", load, policy, measure, value, 1, requests, system)


def work_counted(systems: Systems, asked: Namespace) -> Iterator[Figure]:
    """The instructions of a request: of all threads, and of the longest."""
    if not instructions.is_there():
        return
    requests, ways = few_requests(asked), [way for way in ways_counted(asked) if systems.has(MODES[way[1]])]
    make_loads(systems, {(load, workers) for load, _, workers in ways}, requests)
    counts = at_once(ways, lambda load, system, workers: systems.work(MODES[system], load, workers, requests, Policy()))
    for (load, system, workers), found in zip(ways, counts):
        for measure, value in zip((ALL_THREADS, LONGEST_THREAD), found):
            yield row_of("work", load, Policy(), measure, value, workers, requests, system)


def make_loads(systems: Systems, wanted: set[tuple[Load, int]], requests: int) -> None:
    for load, workers in wanted:
        for count in (requests, 0):
            systems.load(load, workers, count)


def at_once(ways: list[tuple], count: Callable[..., list[float]]) -> list[list[float]]:
    """What is counted, on all processors: counts do not depend on what else the machine does."""
    say(f"instructions, {len(ways)} counts")
    with ThreadPoolExecutor(os.cpu_count()) as pool:
        return list(pool.map(lambda way: count(*way), ways))


# How many windows are measured, with thousands of views of each and bids of each worker. Beside a run there are as many
# views as it leaves time for.
OF_WINDOWS = (
    *((count, 1_000, 0) for count in (1, 4, 16)),
    *((count, 0, 250_000) for count in (0, 1)),
    *((count, 1_000_000, 250_000) for count in (1, 4, 16)),
)


def windows(systems: Systems, asked: Namespace) -> Iterator[Figure]:
    """What `example_watch` measures: views of windows alone, and beside a run."""
    if "windows" not in systems.built:
        return
    say("windows")
    for count, views, bids in OF_WINDOWS:
        where = "beside a run" if bids else "alone"
        words = [systems.built["windows"], f"--windows={count}", f"--views={views}", f"--bids={bids}"]
        said = subprocess.run(words, capture_output=True, text=True, check=True).stdout
        run, seen, spent = re.fullmatch(r"run (\S+), (\d+) views(?: in (\S+))?\n", said).groups()
        if bids:
            yield window_figure(where, count, RUN, in_seconds(run))
        if int(seen):
            yield window_figure(where, count, VIEW, round(in_seconds(spent) * count * 1e9 / int(seen)))


def window_figure(where: str, count: int, measure: str, value: float) -> Figure:
    return row_of("windows", Load(f"windows {where}"), Policy(shards=4), measure, value, count, 1_000_000)


def live_words(most: int, is_logged: bool) -> str:
    """What a table calls a way of serving."""
    return f"`--live {most}{' --log' * is_logged}`"


def live(systems: Systems, asked: Namespace) -> Iterator[Figure]:
    """Replies while requests come: of one worker, by the most requests of a part, with a log and without, beside Redis
    and PostgreSQL."""
    words, path = systems.command("program", Policy(SERVING), 1), systems.load(VIEWED, 1, asked.requests)
    yield live_row(
        AT_ONCE, WHOLE_RATE, rate_of(systems, path, lambda: serving.whole(words, path, None).seconds), asked.requests
    )
    for is_logged in (False, True):
        for most in (1, 1000) if asked.fast else MOST_OF_PARTS:
            yield from live_program(systems, asked, words, most, is_logged)
    yield from live_views(asked, words)
    yield from live_opening(systems, asked, words)
    yield from live_redis(systems, asked)
    yield from live_postgres(systems, asked)


def live_program(systems: Systems, asked: Namespace, words: list[str], most: int, is_logged: bool) -> Iterator[Figure]:
    """One request at a time, and many at once."""
    name, words = live_words(most, is_logged), [*words, f"--live={most}"]
    log = f"{systems.folder}/log" if is_logged else None
    say(f"{VIEWED.name}, one worker, {name}")
    yield from wait_rows(name, serving.session(words, systems.load(VIEWED, 1, session_requests(asked, is_logged)), log))
    count = min(asked.requests, (PARTS_LOGGED if is_logged else PARTS_UNLOGGED) * most)
    many = systems.load(VIEWED, 1, count)
    yield live_row(name, WHOLE_RATE, rate_of(systems, many, lambda: serving.whole(words, many, log).seconds), count)


def live_views(asked: Namespace, words: list[str]) -> Iterator[Figure]:
    for count in (100_000, 1_000_000) if asked.fast else (1_000_000, 20_000_000):
        say(f"{count} views, --live 1000")
        megabytes = serving.memory_of_views([*words, "--live=1000"], count)
        yield row_of("live", Load("views"), Policy(SERVING), MEMORY, megabytes, 1, count, live_words(1000, False))


def live_opening(systems: Systems, asked: Namespace, words: list[str]) -> Iterator[Figure]:
    rows, log = systems.rows(ONE_ITEM, 1, asked.requests), f"{systems.folder}/log"
    seconds = Tries.of(serving.opening([*words, "--live=1000"], rows, log) for _ in range(systems.few_tries()))
    yield live_row(live_words(1000, True), OPENING, seconds, rows.count(b"\n"))


def session_requests(asked: Namespace, is_logged: bool) -> int:
    return (200 if asked.fast else 2000) if is_logged else (2000 if asked.fast else 20_000)


def rate_of(systems: Systems, path: str, seconds: Callable[[], float]) -> Tries:
    """Requests a second of tries over a file."""
    requests = len(serving.records_of(path)[1])
    return Tries.of(requests / seconds() for _ in range(systems.few_tries()))


def live_row(system: str, measure: str, found: Tries | float, requests: int) -> Figure:
    return row_of("live", VIEWED, Policy(SERVING), measure, found, 1, requests, system)


def wait_rows(system: str, spent: list[float]) -> Iterator[Figure]:
    for measure, share in WAITS.items():
        yield live_row(system, measure, serving.part(spent, share), len(spent))


def live_redis(systems: Systems, asked: Namespace) -> Iterator[Figure]:
    if "redis" in asked.skip or not redis_server.is_there():
        return
    path = systems.load(VIEWED, 1, systems.few())
    for is_logged, system in ((False, REDIS), (True, REDIS_LOGGED)):
        say(f"{VIEWED.name}, {system}")
        few = systems.load(VIEWED, 1, session_requests(asked, is_logged))
        yield from wait_rows(system, serving.redis_session(is_logged, few))
        yield live_row(
            system, WHOLE_RATE, rate_of(systems, path, lambda: serving.redis_whole(is_logged, path)), systems.few()
        )


def live_postgres(systems: Systems, asked: Namespace) -> Iterator[Figure]:
    """With a client that waits for each reply, and with as many as the other tables have workers."""
    if systems.server is None:
        return
    say(f"{VIEWED.name}, {POSTGRES_LOGGED}")
    with postgres.Server(postgres.DURABLE) as server:
        rows, scripts = loads.read_load(systems.load(VIEWED, 1, systems.few()), 1)
        server.open(rows, scripts, USERS, CATEGORIES)
        yield from wait_rows(POSTGRES_LOGGED, server.waits(scripts[0], asked.seconds))
        rows, scripts = loads.read_load(systems.load(VIEWED, asked.workers, systems.few()), asked.workers)
        done, rate = server.perform_anew(rows, scripts, USERS, CATEGORIES, asked.seconds)
        yield live_row(POSTGRES_LOGGED, WHOLE_RATE, rate, done)._replace(workers=asked.workers)


def many_clients(systems: Systems, asked: Namespace) -> Iterator[Figure]:
    """Bids on one item from many clients of examples/front.py and of Redis, in turns, with a synced log and without."""
    if "redis" in asked.skip or not clients.are_there():
        return
    for way in clients.WAYS:
        way = way._replace(requests=way.requests // 10) if asked.fast else way
        say(f"{ONE_ITEM.name}, {way.name()}")
        tries = [
            {system: served(systems, way, *server) for system, server in SERVERS.items()}
            for _ in range(systems.few_tries())
        ]
        for system in SERVERS:
            (done, *_), found = zip(*(told[system] for told in tries))
            yield from (client_row(done, system, *one) for one in zip((CLIENTS_RATE, *CLIENT_WAITS), zip(*found)))


def served(systems: Systems, way: clients.Way, made: Callable, is_logged: bool) -> tuple[clients.Way, clients.Found]:
    """What one new server makes of a load, which is shorter if each request waits for the disk; and which load that
    was."""
    few = way._replace(requests=way.requests // 4) if is_logged and way.clients == 1 else way
    with made(systems.built["program"], systems.folder, is_logged) as server:
        return few, clients.load(server, few)


def client_row(way: clients.Way, system: str, measure: str, found: Iterable[float]) -> Figure:
    policy = Policy().of_workers(clients.WORKERS)
    return row_of(
        "clients",
        ONE_ITEM._replace(name=way.name()),
        policy,
        measure,
        Tries.of(found),
        way.clients,
        way.requests,
        system,
    )


# What measures the figures of other tables, and of "delay" what no clock says.
APART = {
    "delay": late_replies,
    "checking": checking,
    "instructions": by_instructions,
    "work": work_counted,
    "windows": windows,
    "live": live,
    "clients": many_clients,
}

PARTS = list(dict.fromkeys((*TOGETHER, *APART)))


def all_figures(systems: Systems, asked: Namespace) -> list[Figure]:
    """What is measured together comes last, since that has as many tries as there is time for."""
    names = asked.only or PARTS
    figures = [figure for name in names if name in APART for figure in APART[name](systems, asked)]
    figures += together(systems, asked, [name for name in names if name in TOGETHER])
    return [
        figure._replace(**{name: float(f"{getattr(figure, name):.6g}") for name in ("value", "low", "high")})
        for figure in figures
    ]
