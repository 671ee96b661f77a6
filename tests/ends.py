#!/usr/bin/env python3
"""Shows what the built program does where its ends fail, as docs/FORMATS.md says: output that cannot be written, input
that cannot be read, threads that do not start, a small stack.

    tests/ends.py [PROGRAM]

A run that leaves something running, or takes longer than ten minutes, has failed.
"""

import ctypes
import fcntl
import os
import resource
import shutil
import signal
from dataclasses import replace
from itertools import product
from subprocess import SubprocessError

from lib.checks import SEEN, VIEW, AuctionTester, each_output, main, with_shim
from lib.model import Options, Outcome, expected
from lib.program import UNPROVED, become_nobody, fault, run
from lib.records import BYTE_ORDER_MARK

UNREAD = fault(2, "input cannot be read")
UNSTARTED = fault(3, "thread not started")
FULL = "/dev/full"


def unwritten(taken: bytes) -> Outcome:
    return replace(fault(4, "output cannot be written"), stdout=taken)


# What is written.


def full_disks(tester: AuctionTester) -> None:
    """a full disk"""
    if not os.path.exists(FULL):
        return tester.tally.skip(full_disks.__doc__, f"there is no {FULL}")
    with open(FULL, "wb") as full:
        for options in each_output():
            tester.same(
                f"to {FULL} with {options.words()}", tester.run(tester.example, options, stdout=full), unwritten(b"")
            )
        tester.same(f"errors to {FULL}", tester.run(b"x", stderr=full), Outcome(2, b"", b""))
        tester.same(f"nothing to {FULL}", tester.run(b"", stdout=full), Outcome(0, b"", b""))


def closed_ends(tester: AuctionTester) -> None:
    """pipes that nobody reads, with the signal of pipes ignored and not; ends that are closed"""
    for options, restore in product(each_output(), (False, True)):
        reader, writer = os.pipe()
        os.close(reader)
        got = tester.run(tester.example, options, stdout=writer, restore_signals=restore)
        os.close(writer)
        tester.same(f"to a closed pipe with {options.words()}", got, unwritten(b""))
    for number, wanted in ((0, UNREAD), (1, unwritten(b"")), (2, Outcome(0, tester.replies, b""))):
        got = tester.run(tester.example, preexec_fn=lambda: os.close(number))
        tester.same(f"descriptor {number} closed", got, wanted)
    tester.same("a fault and no standard error", tester.run(b"x", preexec_fn=lambda: os.close(2)), Outcome(2, b"", b""))


def full_pipes(tester: AuctionTester) -> None:
    """a full pipe that does not let its writer wait"""
    data = VIEW * 10_000
    wanted = expected(data, Options()).stdout
    reader, writer = os.pipe()
    room = fcntl.fcntl(writer, fcntl.F_SETPIPE_SZ, resource.getpagesize())
    os.set_blocking(writer, False)
    got = tester.run(data, stdout=writer)
    os.close(writer)
    with open(reader, "rb") as pipe:
        taken = pipe.read()
    tester.same("to a full pipe", got, unwritten(b""))
    tester.tally.check(0 < len(taken) <= room and wanted.startswith(taken), "a full pipe has a front of the text")


def file_size_limits(tester: AuctionTester) -> None:
    """a file that may have k bytes, for each k; the signal of this limit ends the program where it is not ignored"""
    options = Options(report=True, categories=2)
    text = expected(tester.example, options).stdout
    signalled = Outcome(-signal.SIGXFSZ, b"", b"")
    for most, handler in product(range(len(text) + 2), (signal.SIG_IGN, signal.SIG_DFL)):
        with tester.output.open("wb") as limited:
            got = tester.run(tester.example, options, stdout=limited, preexec_fn=lambda: limit_file_size(most, handler))
        cut = unwritten(b"") if handler == signal.SIG_IGN else signalled
        wanted = cut if most < len(text) else Outcome(0, b"", b"")
        tester.same(
            f"to a file of {most} bytes, {handler.name}",
            replace(got, stdout=tester.output.read_bytes()),
            replace(wanted, stdout=text[:most]),
        )


def limit_file_size(most: int, handler: signal.Handlers) -> None:
    signal.signal(signal.SIGXFSZ, handler)
    resource.setrlimit(resource.RLIMIT_CORE, (0, 0))
    resource.setrlimit(resource.RLIMIT_FSIZE, (most, most))


@with_shim
def cut_writes(tester: AuctionTester) -> None:
    """writes that take few bytes, none, or fail after k bytes"""
    for options in each_output():
        text = expected(tester.example, options).stdout
        for most in (1, 2, 3, len(text)):
            got = tester.run_cut("WRITE_AT_MOST", most, tester.example, options)
            tester.same(f"{most} bytes a write with {options.words()}", got, Outcome(0, text, b""))
        for limit, taken in product(("WRITE_FAILS_AT", "WRITE_STOPS_AT"), range(len(text))):
            got = tester.run_cut(limit, taken, tester.example, options)
            tester.same(f"{limit} {taken} with {options.words()}", got, unwritten(text[:taken]))


# What is read.


def unreadable_inputs(tester: AuctionTester) -> None:
    """input that is a directory, or only for writing"""
    for path, mode in (("/", os.O_RDONLY), (os.devnull, os.O_WRONLY)):
        unreadable = os.open(path, mode)
        for options in each_output():
            tester.same(f"{path} with {options.words()}", tester.run(unreadable, options), UNREAD)
        os.close(unreadable)


@with_shim
def cut_reads(tester: AuctionTester) -> None:
    """input that fails after k bytes; reads that give few bytes"""
    for given in range(len(tester.example) + 1):
        tester.same(f"input fails after {given} bytes", tester.run_cut("READ_FAILS_AT", given, tester.example), UNREAD)
    for most, mark in product((1, 2, 3, 7), (b"", BYTE_ORDER_MARK)):
        got = tester.run_cut("READ_AT_MOST", most, mark + tester.example)
        tester.same(f"{most} bytes a read", got, Outcome(0, tester.replies, b""))


@with_shim
def interrupted_calls(tester: AuctionTester) -> None:
    """reads and writes that a signal interrupts, each second, third or fifth: they are tried again"""
    for options, every, most in product(each_output(), (2, 3, 5), (1, 7)):
        wanted = expected(tester.example, options)
        got = tester.run_cut("INTERRUPTED", every, tester.example, options, READ_AT_MOST=most, WRITE_AT_MOST=most)
        tester.same(f"each {every}th call is interrupted, with {options.words()}", got, wanted)


# Threads.

LONG_PHASES = Options(workers=4, joined=1000, split=1000)
OF_EACH_WORKER = 3000
# To read the input, to join what was read, and for each of three phases.
NEEDED = 3 * 5
# With at most so many requests of each worker a phase is short.
SHORT = 128
SHORT_PHASES = replace(LONG_PHASES, joined=64, split=64)


def views(count: int, users: int = LONG_PHASES.shards) -> bytes:
    """So many views of each worker, of so many users: each is in a shard of its own, if there are as many."""
    return b"".join(
        b"%d,viewuser,%d\n" % (worker, index % users) for worker in range(LONG_PHASES.workers) for index in range(count)
    )


def views_seen(count: int) -> Outcome:
    lines = (b"%d,%d,%s" % (worker, index, SEEN) for worker in range(LONG_PHASES.workers) for index in range(count))
    return Outcome(0, b"".join(lines), b"")


@with_shim
def refused_threads(tester: AuctionTester) -> None:
    """no more than n threads, for each n: a long phase needs one for each worker but the first; a short one, one on few
    shards and a long input none"""
    for most in range(NEEDED):
        tester.same(
            f"{most} threads", tester.run_cut("THREADS_AT_MOST", most, views(OF_EACH_WORKER), LONG_PHASES), UNSTARTED
        )
    got = tester.run_cut("THREADS_AT_MOST", NEEDED, views(OF_EACH_WORKER), LONG_PHASES)
    tester.same(f"{NEEDED} threads", got, views_seen(OF_EACH_WORKER))
    for count in (0, 1, SHORT):
        tester.same(
            f"{count} requests of each",
            tester.run_cut("THREADS_AT_MOST", 0, views(count), LONG_PHASES),
            views_seen(count),
        )
    tester.same(
        f"{SHORT + 1} requests of each", tester.run_cut("THREADS_AT_MOST", 0, views(SHORT + 1), LONG_PHASES), UNSTARTED
    )
    for users in (1, 2):
        got = tester.run_cut("THREADS_AT_MOST", 0, views(OF_EACH_WORKER, users), LONG_PHASES)
        tester.same(f"long phases on {users} shards", got, views_seen(OF_EACH_WORKER))
    tester.same(
        "long phases on 3 shards",
        tester.run_cut("THREADS_AT_MOST", 0, views(OF_EACH_WORKER, 3), LONG_PHASES),
        UNSTARTED,
    )
    for most in range(NEEDED):
        got = tester.run_cut("THREADS_AT_MOST", most, views(OF_EACH_WORKER), SHORT_PHASES)
        tester.same(f"short phases of a long input, and {most} threads", got, views_seen(OF_EACH_WORKER))


# Views of these users in turn, half of which are in one shard of at most 4, and of 1, 2, 4 or 8: a user's shard is
# the remainder of its number.
TO_FOUR, TO_EIGHT = (0, 1, 4, 2), (0, 8, 0, 8, 3, 4, 5, 6)


@with_shim
def shards_for_speed(tester: AuctionTester) -> None:
    """--fast has four shards for each worker, unless they are given: long phases of two workers whose requests meet in
    one of eight, or of four, and no thread"""
    workers = range(2)
    quotas = ("--workers=2", f"--joined={LONG_PHASES.joined}", f"--split={LONG_PHASES.split}")
    seen = Outcome(
        0, b"".join(b"%d,%d,%s" % (worker, index, SEEN) for worker in workers for index in range(OF_EACH_WORKER)), b""
    )
    for users, shards, wanted in (
        (TO_FOUR, (), UNSTARTED),
        (TO_EIGHT, (), seen),
        (TO_FOUR, ("--shards=4",), seen),
        (TO_EIGHT, ("--shards=5",), UNSTARTED),
    ):
        data = b"".join(
            b"%d,viewuser,%d\n" % (worker, users[index % len(users)])
            for worker in workers
            for index in range(OF_EACH_WORKER)
        )
        got = run([tester.program, "--fast", *quotas, *shards], data, env=tester.limited({"THREADS_AT_MOST": 0}))
        tester.same(f"--fast {shards} and views of users {users}", got, wanted)


@with_shim
def threads_for_a_hot_item(tester: AuctionTester) -> None:
    """bids of all workers on one item and no thread: a long split phase needs one if the item is
    hot, and none if nothing may be"""
    options = replace(LONG_PHASES, joined=1, threshold=1)
    workers, count = range(options.workers), options.joined + options.split
    bids = b"0,+item,0,0,Vase,10,100,1\n" + b"".join(b"%d,bid,1,0.0,10,5\n" % worker * count for worker in workers)
    replies = b"".join(
        b"%d,%d,bid %d.%d\n" % (worker, index, worker, index) for worker in workers for index in range(count)
    )
    tester.same("a hot item", tester.run_cut("THREADS_AT_MOST", 0, bids, options), UNSTARTED)
    tester.same(
        "nothing hot", tester.run_cut("THREADS_AT_MOST", 0, bids, replace(options, hot=0)), Outcome(0, replies, b"")
    )


def users_without_threads(tester: AuctionTester) -> None:
    """a user who may have no more threads"""
    tester.folder.chmod(0o755)
    command = [shutil.copy(tester.program, tester.folder / "program"), *LONG_PHASES.words()]
    try:
        long = run(command, views(OF_EACH_WORKER), preexec_fn=allow_no_thread)
        short = run(command, views(1), preexec_fn=allow_no_thread)
    except (SubprocessError, OSError) as refused:
        return tester.tally.skip(users_without_threads.__doc__, f"there can be no such user here ({refused})")
    tester.same("long phases of a user without threads", long, UNSTARTED)
    tester.same("short phases of a user without threads", short, views_seen(1))


def allow_no_thread() -> None:
    """Forbids this process to start another."""
    become_nobody()
    resource.setrlimit(resource.RLIMIT_NPROC, (0, 0))
    require_no_fork()


def require_no_fork() -> None:
    try:
        child = os.fork()
    except BlockingIOError:
        return
    if child == 0:
        os._exit(0)
    os.waitpid(child, 0)
    raise OSError("the limit does not hold")


def small_stacks(tester: AuctionTester) -> None:
    """a stack of 128 KB, also live with a log, and with that log again"""
    if UNPROVED:
        return tester.tally.skip(small_stacks.__doc__, "a build with no proof has larger frames")
    options, log = Options(workers=2, split=2), tester.folder / "small"
    answered, rows = expected(tester.example, options), expected(tester.example, replace(options, rows=True)).stdout
    logged = ("--live", "1", "--log", log)
    for words, data, wanted in (
        ((), tester.example, answered),
        (logged, tester.example, answered),
        (logged, VIEW, Outcome(0, b"0,0," + SEEN, b"")),
    ):
        got = run([tester.program, *options.words(), *words], data, env={}, preexec_fn=limit_stack)
        tester.same(f"a stack of 128 KB, {words}", got, wanted)
    tester.tally.check(log.read_bytes() == rows, "the log of a small stack")


# Linux leaves up to 8 KB of a stack free, at random in each run, unless addresses are fixed. An
# environment is on the stack, too.
FIXED_ADDRESSES, LEFT_FREE = 0x0040000, 8 << 10


def limit_stack() -> None:
    """A stack of 128 KB, without the most that Linux may leave free: so each run has the least room."""
    are_fixed = ctypes.CDLL(None).personality(FIXED_ADDRESSES) != -1
    room = (128 << 10) - LEFT_FREE * are_fixed
    resource.setrlimit(resource.RLIMIT_STACK, (room, room))


CHECKS = (
    full_disks,
    closed_ends,
    full_pipes,
    file_size_limits,
    small_stacks,
    cut_writes,
    unreadable_inputs,
    cut_reads,
    interrupted_calls,
    refused_threads,
    shards_for_speed,
    threads_for_a_hot_item,
    users_without_threads,
)

if __name__ == "__main__":
    main(__doc__, CHECKS)
