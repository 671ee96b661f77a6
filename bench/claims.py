"""The sentences of README.md and its table, made of the figures. Two figures whose ranges overlap are not shown to
differ, and the page says so."""
from cells import MILLION, OVERLAP, are_apart, figure, in_workers, millions, ranged, table, times, two, values
from figures import ALONE, AUCTION, CLIENTS_RATE, FRONT, FRONT_LOGGED, IN_C, LOCK, PHASES, POSTGRES, POSTGRES_LOGGED
from figures import EXECUTING, REDIS, REDIS_LOGGED, SHARDS, UNSPLIT, WHOLE_RATE, Figure
from measures import BIDDING, ONE_ITEM, Policy

PLAIN = (PHASES, SHARDS, LOCK, ALONE)

# What is compared.
Pair = tuple[Figure, Figure]

ONE_CLIENT, MOST_CLIENTS, LOGGED = "1 client", "100 clients", (FRONT_LOGGED, REDIS_LOGGED)


def most_workers(rows: list[Figure]) -> int:
    """How many workers the tables have that are not by workers."""
    counts = [row.workers for row in rows if row.table in ("skew", "executing")] or [row.workers for row in rows]
    return max(counts, default=1)


def whole_commands(rows: list[Figure]) -> list[Figure]:
    return values(rows, table="workers", measure=WHOLE_RATE)


def beside(rows: list[Figure]) -> str:
    """The table of README.md: what others offer, and what they do in a second, like beside like."""
    heads = ["", AUCTION, "plain Rust", "Redis, in Lua", "PostgreSQL"]
    return table(
        heads,
        [
            ["Serializable", "proved", "argued", "one thread", "tested"],
            ["Prints its serial order", "yes", "no", "of writes (AOF)", "no"],
            ["Your own transactions", "in Rattle; in Rust, unproved", "any", "any", "any"],
            ["Millions of bids/s, from a file", *from_a_file(rows)],
            ["Thousands of bids/s, 1 client", *served(rows, ONE_CLIENT, (FRONT, REDIS))],
            [MOST_CLIENTS, *served(rows, MOST_CLIENTS, (FRONT, REDIS), unlogged_postgres(rows))],
            [f"{MOST_CLIENTS}, log synced", *served(rows, MOST_CLIENTS, LOGGED, logged_postgres(rows))],
        ],
    )


def from_a_file(rows: list[Figure]) -> list[str]:
    """The auction's rate of whole commands, and that of the fastest plain Rust."""
    found = values(whole_commands(rows), load=ONE_ITEM.name)
    own = figure(found, system=AUCTION, workers=most_workers(rows))
    return [millions(own), or_tie(own, best(found, PLAIN), MILLION), "-", "-"]


def served(rows: list[Figure], clients: str, servers: tuple[str, str], postgres: str = "-") -> list[str]:
    """The rates of the front and of Redis with so many clients, and what is told of PostgreSQL."""
    found = values(rows, table="clients", load=clients, measure=CLIENTS_RATE)
    own, redis = (figure(found, system=server) for server in servers)
    return [ranged(own, 1e3), "-", or_tie(own, redis, 1e3), postgres]


def or_tie(own: Figure | None, other: Figure | None, unit: float) -> str:
    """Another's rate, marked if the auction's is not shown to differ from it."""
    return ranged(other, unit) + ", a tie" * (own is not None and other is not None and not are_apart(own, other))


def unlogged_postgres(rows: list[Figure]) -> str:
    return of_postgres(figure(rows, table="executing", load=ONE_ITEM.name, system=POSTGRES, measure=EXECUTING))


def logged_postgres(rows: list[Figure]) -> str:
    return of_postgres(figure(rows, table="live", system=POSTGRES_LOGGED, measure=WHOLE_RATE))


def of_postgres(row: Figure | None) -> str:
    """Its rate, with how many clients it has, and what they send beside bids."""
    return f"{ranged(row, 1e3)}, {row.workers} clients{row.load.removeprefix(ONE_ITEM.name)}" if row else "-"


def level(rows: list[Figure]) -> str:
    """Load by load how many times as fast plain Rust is."""
    most = most_workers(rows)
    pairs = against(whole_commands(rows), most, PLAIN, True)
    return judged("The fastest plain Rust is", [(other, own) for own, other in pairs]) if pairs else ""


def judged(words: str, pairs: list[Pair]) -> str:
    """How many times as fast the first of each two is as the second, and on which loads their ranges overlap."""
    apart, alike = ([pair for pair in pairs if are_apart(*pair) == wanted] for wanted in (True, False))
    if not apart:
        return f"{words} not shown to be faster or slower ({OVERLAP})"
    if not alike:
        found = [own.value / other.value for own, other in pairs]
        return f"{words} {' to '.join(dict.fromkeys(map(two, (min(found), max(found)))))} times as fast"
    first, *others = [(times(*pair), load_in_words(pair[0])) for pair in apart]
    found = [f"{first[0]} times as fast on {first[1]}", *(f"{many} times on {load}" for many, load in others)]
    rest = load_in_words(alike[0][0]) if len(alike) == 1 else "the other loads"
    return f"{words} {listed(found)}; on {rest} no difference is shown"


def load_in_words(row: Figure) -> str:
    return "the bidding mix" if row.load == BIDDING.name else row.load


def listed(words: list[str]) -> str:
    return " and ".join(filter(None, (", ".join(words[:-1]), words[-1])))


def best(rows: list[Figure], systems: tuple[str, ...]) -> Figure | None:
    """Of some systems the fastest."""
    return max((row for row in rows if row.system in systems), key=lambda row: row.value, default=None)


def by_loads(pairs: list[Pair]) -> str:
    """The first of each two as a multiple of the second, load by load."""
    return listed([f"{times(*pair)} ({', '.join([load_in_words(pair[0]), *overlapping(*pair)])})" for pair in pairs])


def overlapping(own: Figure, other: Figure) -> list[str]:
    return [] if are_apart(own, other) else [OVERLAP]


def against(rows: list[Figure], workers: int, systems: tuple[str, ...], of_any_workers: bool = False) -> list[Pair]:
    """The auction with so many workers beside the fastest of some systems, for each load that has both."""
    own, others = values(rows, system=AUCTION, workers=workers), rows if of_any_workers else values(
        rows, workers=workers
    )
    pairs = [(one, best(values(others, load=one.load), systems)) for one in own]
    return [(one, other) for one, other in pairs if other]


def cost(rows: list[Figure]) -> str:
    """Whole commands beside the fastest plain Rust, with any number of workers."""
    most = most_workers(rows)
    pairs = against(whole_commands(rows), most, (*PLAIN, IN_C), True)
    if not pairs:
        return ""
    known = "one thread of C" if {other.system for _, other in pairs} == {IN_C} else "the fastest plain Rust or C"
    return f"With {in_workers(most)}, whole commands reach {by_loads(pairs)} of the throughput of {known}"


def gain(rows: list[Figure]) -> str:
    """What splitting is worth, load by load."""
    most = most_workers(rows)
    pairs = against(whole_commands(rows), most, (UNSPLIT,))
    if not pairs:
        return ""
    return judged(f"With {options_of(pairs[0][0])} and {in_workers(most)}, splitting makes whole commands", pairs)


def options_of(row: Figure) -> str:
    """What says a row's shards and quotas in a command line: --fast, or the numbers if it would say others."""
    fast = Policy().of_workers(row.workers)
    if (row.shards, row.joined, row.split) == (fast.shards, *fast.quotas):
        return "`--fast`"
    return f"`--shards {row.shards} --joined {row.joined} --split {row.split}`"


def costs(rows: list[Figure]) -> str:
    return "\n".join(f"{told}." for told in (cost(rows), level(rows)) if told)


def gains(rows: list[Figure]) -> str:
    return f"{told}.\n" if (told := gain(rows)) else ""


# The parts of README.md, and of docs/PERFORMANCE.md its sentences that compare.
OF_README, OF_PERFORMANCE = {"beside": beside, "costs": costs}, {"gain": gains}
