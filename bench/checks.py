"""Before anything is measured: that all systems do the same work."""
import sys

import lite
import loads
import measures
import programs
import redis_server
import serving

# All kinds of requests, and hot items.
MIXED = measures.Load("mixed", items=50, skew=150, views=40, comments=10, purchases=5, new_items=5)

REQUESTS = 2000

# Bids that are all accepted have the same replies in any order; so many of them are read by several threads.
BIDS, WORKERS = 40_000, 4


def same(name: str, wanted: str, got: str) -> None:
    if wanted != got:
        differ = (place for place, (one, other) in enumerate(zip(wanted, got)) if one != other)
        at = next(differ, min(len(wanted), len(got)))
        sys.exit(f"{name} does other work: {wanted[max(0, at - 60):at + 60]!r} and {got[max(0, at - 60):at + 60]!r}")


def same_replies(systems: measures.Systems) -> None:
    """With one worker each system gives the same replies, byte for byte; with two, PostgreSQL ends with the same
    views."""
    path = systems.load(MIXED, 1, REQUESTS)
    never, split = measures.Policy(hot=0), measures.Policy(quotas=(100, 300))
    for policy, modes in ((never, ("serial", "lock", "shards", "phases", measures.ONE_PASS)), (split, ("phases",))):
        wanted = programs.output_of(systems.command("program", policy, 1), path)
        for mode in filter(systems.has, modes):
            same(mode, wanted, programs.output_of(systems.command(mode, policy, 1), path))
    same_bids(systems)
    wanted = programs.output_of(systems.command("program", never, 1), path)
    rows, scripts = loads.read_load(path, 1)
    if "sqlite" not in systems.asked.skip:
        replies = lite.perform(rows, scripts, measures.USERS, measures.CATEGORIES)[0][0]
        same("SQLite", wanted, "".join(f"0,{place},{lite.text_of(reply)}\n" for place, reply in enumerate(replies)))
    if redis_server.is_there() and "redis" not in systems.asked.skip:
        viewed = systems.load(measures.VIEWED, 1, REQUESTS)
        same("Redis", programs.output_of(systems.command("program", never, 1), viewed), serving.redis_replies(viewed))
    if systems.server:
        systems.server.open(rows, scripts, measures.USERS, measures.CATEGORIES)
        same("PostgreSQL", wanted, systems.server.replies(scripts[0]))
        same_end(systems)


def same_bids(systems: measures.Systems) -> None:
    """With several workers, bids have the same replies in each mode of plain Rust."""
    path = systems.load(measures.UNIFORM, WORKERS, BIDS)
    wanted = programs.output_of(systems.command("program", measures.Policy(), WORKERS), path)
    for mode in filter(systems.has, ("serial", "lock", "shards", "phases")):
        words = systems.command(mode, measures.Policy(), WORKERS)
        same(f"{mode}, {WORKERS} workers", wanted, programs.output_of(words, path))


def same_end(systems: measures.Systems) -> None:
    path = systems.load(MIXED, 2, REQUESTS)
    words = [*systems.command("program", measures.Policy(), 2), "--report"]
    shown = programs.output_of(words, path).splitlines(keepends=True)
    rows, scripts = loads.read_load(path, 2)
    systems.server.open(rows, scripts, measures.USERS, measures.CATEGORIES)
    systems.server.clients(2, REQUESTS // 2, 0)
    views = "".join(line for line in shown if line.startswith(("category ", "user ")))
    same("PostgreSQL at its end", views, systems.server.closing())
