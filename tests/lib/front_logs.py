"""What examples/front.py does when its log fails, is moved or is cut, and when the clock goes back."""

import os
import re
import resource
import shutil
import subprocess
import time
from contextlib import contextmanager
from pathlib import Path
from typing import Callable, Iterator

from lib.bidders import NOT_DONE, VASE, Bidders
from lib.fronts import FRONT, SEEN, UNKNOWN, Front, FrontTester, script, shimmed
from lib.program import run
from lib.sessions import SECONDS, wait_until
from lib.watched import judged_by_itself

ANOTHER_LOG = 7  # a status
# An item and a bid as rows, and a bid on it.
ROW, BID_ROW, PLACED = b'0,+item,1,2,"Vase",10,100,1,1\n', b"0,+bid,1,0.0,500,5\n", b"BID 1 0.0 500 5"
FULL = b"cannot be written: No space left on device"


def move(log: Path) -> None:
    log.rename(log.with_name("moved"))


def remove(log: Path) -> None:
    shutil.copy(log, log.with_name("moved"))
    log.unlink()


def empty(log: Path) -> None:
    """As logrotate does with `copytruncate`."""
    shutil.copy(log, log.with_name("moved"))
    os.truncate(log, 0)


def cut_to_a_row(log: Path) -> None:
    shutil.copy(log, log.with_name("moved"))
    os.truncate(log, log.read_bytes().index(b"\n") + 1)


def replace_by_an_older(log: Path) -> None:
    older = log.with_name("older")
    older.write_bytes(log.read_bytes().splitlines(True)[0])
    log.rename(log.with_name("moved"))
    older.rename(log)


def replace_by_a_longer(log: Path) -> None:
    """Of another auction."""
    longer = log.with_name("longer")
    longer.write_bytes(ROW * (2 + log.read_bytes().count(b"\n")))
    log.rename(log.with_name("moved"))
    longer.rename(log)


DEEDS = (move, remove, empty, cut_to_a_row, replace_by_an_older, replace_by_a_longer)


def change_a_row(log: Path) -> None:
    """To another of the same length."""
    log.write_bytes(log.read_bytes().replace(b",500,", b",501,", 1))


AWAY = (move, cut_to_a_row, replace_by_a_longer, change_a_row)


def bidding(front: Front) -> Bidders:
    """Clients of a front that has an item."""
    with front.client() as client:
        assert client.ask(VASE) == [b"item 0.0"]
    return Bidders(front.client)


def other_logs(tester: FrontTester) -> None:
    """a log that is moved, removed, emptied, cut, or replaced under load: status 7, nothing more is done, no id is
    given twice, and the log that was put back goes on with all that was acknowledged"""
    for deed in DEEDS:
        front = Front(tester, deed.__name__)
        with bidding(front) as bidders:
            wait_until(lambda: len(bidders.acknowledged) > 100)
            # Else what is logged between a copy and a cut would be in neither.
            with front.held():
                deed(front.log)
            status = front.process.wait(SECONDS)
        tester.tally.check(
            status == ANOTHER_LOG and set(bidders.others) <= {UNKNOWN, b"-ERR the auction ends"},
            f"{deed.__name__}: status {status}, {bidders.others[:3]}, {front.said.read_text()[-300:]}",
        )
        bidders.judge(tester.tally, deed.__name__, front.log.with_name("moved").read_bytes())
        front.log.with_name("moved").replace(front.log)
        front.start()
        wait_until(front.serves_again)
        with front.client() as client:
            seen = client.ask(b"VIEWITEM 0.0")[0]
        tester.tally.check(
            int(re.search(rb"bids=(\d+)", seen)[1]) >= len(bidders.acknowledged) and front.close() == 0,
            f"the log is put back: {seen}",
        )


def ends_with(front: Front) -> tuple[int, str]:
    """The status of a start that does not serve, and what it says."""
    front.start()
    return front.process.wait(SECONDS), front.said.read_bytes()[front.began_at :].decode()


def serves_on(front: Front, command: bytes) -> bytes:
    """What the next start replies."""
    front.start()
    wait_until(front.serves_again)
    with front.client() as client:
        return client.ask(command)[0]


def end(front: Front) -> None:
    front.process.kill()
    front.process.wait()


def deeds_between_fronts(tester: FrontTester) -> None:
    """a log that is moved, cut, replaced or edited after a front was killed: the next one ends with status 7 before it
    serves, and changes nothing; a copy that is put back goes on, and so does what is there without its mark"""
    front, mark = Front(tester, "between"), tester.folder / "between" / "rows.mark"
    with front.client() as client:
        client.ask(VASE, PLACED)
    for number, deed in enumerate(AWAY, 1):
        end(front)
        rows = front.log.read_bytes()
        deed(front.log)
        left = front.log.read_bytes() if front.log.exists() else None
        status, said = ends_with(front)
        tester.tally.check(
            status == ANOTHER_LOG and said.count("\n") == 1 and "remove its .mark" in said
            and (front.log.read_bytes() if front.log.exists() else None) == left,
            f"{deed.__name__} between two fronts: status {status}, {said}",
        )
        front.log.unlink(missing_ok=True)
        front.log.write_bytes(rows)
        got = serves_on(front, PLACED)
        tester.tally.check(got == b"bid 0.%d" % number, f"the log is put back after {deed.__name__}: {got}")
    end(front)
    cut_to_a_row(front.log)
    mark.unlink()
    got = serves_on(front, PLACED)
    tester.tally.check(got == b"bid 0.0" and front.close() == 0, f"a log that is cut, without its mark: {got}")
    with front.log.open("ab") as log:
        log.write(b"0,+bid,1,0.0,500,5\n")
    got = serves_on(front, PLACED)
    tester.tally.check(got == b"bid 0.2", f"rows that were added between two fronts: {got}")
    end(front)
    front = Front(tester, "viewed", rows=2 * ROW)
    with front.client() as client:
        client.ask(b"VIEWITEM 0.1")
    end(front)
    cut_to_a_row(front.log)
    status, said = ends_with(front)
    tester.tally.check(status == ANOTHER_LOG, f"a log that was only viewed, and is cut: status {status}, {said}")


# The program, which does something to its log before it opens it, if there is a file beside that.
OPENS_LATE = """\
#!/bin/sh
[ -e {log}.now ] && {deed}
exec {program} "$@"
"""


def deeds_while_it_opens(tester: FrontTester) -> None:
    """a log that is changed when the front has looked at it and the program opens it: no id is given twice if a row is
    cut off, and if one is edited the next front ends with status 7"""
    amount = len(ROW) + BID_ROW.index(b"500")
    # The row of the bid that is placed then is as long as the one that is cut off.
    for name, deed, told in (
        ("cut", f"truncate -s -{len(BID_ROW)} {{log}}", [UNKNOWN]),
        ("edited", f"printf 501 | dd of={{log}} bs=1 seek={amount} conv=notrunc status=none", [b"bid 0.1"]),
    ):
        log = tester.folder / f"{name}_while_it_opens" / "rows"
        words = {"log": log, "deed": deed.format(log=log), "program": tester.program}
        program = script(tester.folder / f"{name}_late", OPENS_LATE.format(**words))
        front = Front(tester, log.parent.name, rows=ROW + BID_ROW, program=program)
        with front.client() as client:
            client.ask(b"VIEWITEM 0.0")
        end(front)
        Path(f"{log}.now").touch()
        front.start()
        wait_until(front.serves_again)
        with front.client() as client:
            got = client.ask(PLACED)
        if got != [UNKNOWN]:
            end(front)
            Path(f"{log}.now").unlink()
            front.start()
        status = front.process.wait(SECONDS)
        tester.tally.check(got == told and status == ANOTHER_LOG, f"{name} while it opens: {got}, status {status}")


def foreign_marks(tester: FrontTester) -> None:
    """a FILE.mark or FILE.clock that is of no front, a link or a pipe: a line, and what it is stays"""
    folder = tester.folder / "foreign_marks"
    folder.mkdir()
    text, log = folder / "text", folder / "rows"
    text.write_bytes(b"")
    for kind in ("mark", "clock"):
        place = folder / f"rows.{kind}"
        for make, told in (
            (lambda: place.write_bytes(b"dear diary\n"), "is not of a front"),
            (lambda: os.mkfifo(place), "is not of a front"),
            (lambda: place.symlink_to(text), "rows."),
        ):
            make()
            got = run([*FRONT, "--port", "0", "--log", log, tester.program])
            tester.tally.check(
                got.status == 1 and got.stderr.count(b"\n") == 1 and told.encode() in got.stderr,
                f"a foreign {kind}: {got}",
            )
            is_kept = text.read_bytes() == b"" and (not place.is_file() or place.read_bytes() in (b"", b"dear diary\n"))
            tester.tally.check(is_kept, f"a foreign {kind} is as it was")
            place.unlink()


def failing_syncs(tester: FrontTester) -> None:
    """each start's eighth sync fails, under load: the log is copied before the next start, a bid that is told to be not
    done is none, and no acknowledged one is lost"""
    if tester.shim is None:
        return tester.tally.skip(failing_syncs.__doc__, "there is no C compiler")
    limits = {"LOG_SYNC_FAILS": 8, "LOG_SYNC_TAKES": 20}
    front = Front(tester, "failing_syncs", program=shimmed(tester, "failing_syncs", limits))
    of_a_user, places = front.log.with_name("rows.new"), set()
    of_a_user.write_text("mine")
    with bidding(front) as bidders:
        for start in range(2, 5):
            places.add(front.log.stat().st_ino)
            wait_until(lambda: front.said.read_text().count("ended with status 5") >= start - 1)
            wait_until(lambda: front.log.stat().st_ino not in places)
    tester.tally.check(
        len(places) == 3
        and not bidders.others
        and bidders.not_done
        and bidders.views >= len(bidders.acknowledged) + len(bidders.not_done)
        and of_a_user.read_text() == "mine"
        and not front.log.with_name("rows.front-new").exists(),
        f"syncs that fail: {len(places)} files, {bidders.others[:3]}, {len(bidders.not_done)} not done",
    )
    tester.tally.check(front.close() == 0, f"the status after syncs that fail: {front.said.read_text()[-300:]}")
    bidders.judge(tester.tally, "syncs that fail", front.log.read_bytes())
    judged_by_itself(tester, front)


@contextmanager
def small_disk(tester: FrontTester, size: str) -> Iterator[Path | None]:
    """A disk of this size, if one can be mounted."""
    disk = tester.folder / "small_disk"
    disk.mkdir()
    mount = ["mount", "-t", "tmpfs", "-o", f"size={size}", "tmpfs", disk]
    if os.geteuid() != 0 or subprocess.run(mount, capture_output=True).returncode != 0:
        yield None
        return
    try:
        yield disk
    finally:
        subprocess.run(["umount", "--lazy", disk], check=True)


def full_disk(tester: FrontTester) -> None:
    """a disk that is full: views are answered, stores are told that they are not done and why, and they are done again
    once there is room"""
    with small_disk(tester, "640k") as disk:
        if disk is None:
            return tester.tally.skip(full_disk.__doc__, "no disk can be mounted")
        front = Front(tester, "full_disk", log=disk / "rows")
        with bidding(front) as bidders:
            wait_until(lambda: len(bidders.acknowledged) > 100)
            (disk / "other").write_bytes(bytes(600_000))
            wait_until(lambda: bidders.not_done)
            before, views = len(bidders.acknowledged), bidders.views
            wait_until(lambda: bidders.views > views + 1000)
            time.sleep(2.5)
            during, starts = len(bidders.acknowledged), front.info()["starts"]
            (disk / "other").unlink()
            wait_until(lambda: len(bidders.acknowledged) > during + 1000)
        with front.client() as client:
            told = client.ask(VASE)
        tester.tally.check(
            during - before < 100 and starts <= 4 and not bidders.others and told[0].startswith(b"item "),
            f"a full disk: {during - before} acknowledged, {starts} starts, {bidders.others[:3]}, then {told}",
        )
        tester.tally.check(front.close() == 0, f"the status after a full disk: {front.said.read_text()[-300:]}")
        bidders.judge(tester.tally, "a full disk", front.log.read_bytes())
        judged_by_itself(tester, front)


def limited_files(tester: FrontTester) -> None:
    """a limit on the length of files (`ulimit -f`): a store past it is told so, and not done, views are answered, and
    the program is started again only once"""
    rows, room = 10_000 * ROW, 5 * len(BID_ROW)
    most = len(rows) + room + 1
    front = Front(
        tester,
        "limited_files",
        rows=rows,
        has_audit=False,
        preexec_fn=lambda: resource.setrlimit(resource.RLIMIT_FSIZE, (most, most)),
    )
    too_large = NOT_DONE + b"the log cannot be written: File too large"
    with front.client() as client:
        got = [client.ask(PLACED)[0] for _ in range(6)]
        tester.tally.check(
            got[:5] == [b"bid 0.%d" % number for number in range(5)] and got[5].startswith(too_large),
            f"bids up to a limit on files: {got}",
        )
        until = time.monotonic() + 4
        while time.monotonic() < until:
            got = client.ask(PLACED, b"VIEWITEM 0.0")
            tester.tally.check(got[0].startswith(too_large) and b" bids=5 " in got[1], f"past the limit: {got}")
            time.sleep(0.4)
    tester.tally.check(front.info()["starts"] == 2 and front.close() == 0, "the front past a limit on files")
    tester.tally.check(front.log.read_bytes() == rows + 5 * BID_ROW, "the log past a limit on files")


def refused_write(tester: FrontTester) -> None:
    """a write that fails: the store is told what failed, and that it is not done"""
    if tester.shim is None:
        return tester.tally.skip(refused_write.__doc__, "there is no C compiler")
    front = Front(tester, "refused_write", program=shimmed(tester, "refused_write", {"LOG_WRITE_FAILS": 2}))
    with front.client() as client:
        got = client.ask(VASE, b"VIEWUSER 0") + client.ask(VASE, b"VIEWITEM 0.0")
        wanted = NOT_DONE + b"the log " + FULL
        tester.tally.check(
            got[0] == b"item 0.0" and got[2].startswith(wanted) and got[3].startswith(b"viewitem "), f"{got}"
        )
    tester.tally.check(front.close() == 0, "the status after a write that failed")


# A front whose clock is so many seconds off as a file says.
CLOCK = """\
import runpy, sys, time
now, (shift, script) = time.time_ns, sys.argv[1:3]
time.time_ns = lambda: now() + int(open(shift).read()) * 10**9
sys.argv[:] = sys.argv[2:]
sys.path[0] = script.rpartition("/")[0]
runpy.run_path(script, run_name="__main__")
"""


def clock(tester: FrontTester) -> None:
    """a clock that goes back an hour: an item that was closed stays closed, at once, after a kill of the program, and
    after one of the front"""
    shift = tester.folder / "shift"
    shift.write_text("0")
    front = Front(tester, "clock", script=[*FRONT[:-1], "-c", CLOCK, str(shift), FRONT[-1]])
    with front.client() as client:
        closes = int(1000 * (time.time() + 1.5))
        got = client.ask(b"ITEM 1 2 Vase 10 %d *" % closes, b"BID 1 0.0 500 *")
        wait_until(lambda: time.time() * 1000 > closes)
        got += client.ask(b"BID 2 0.0 600 *")
        shift.write_text("-3600")
        got += client.ask(b"BID 3 0.0 700 *")
        front.kill_engine()
        wait_until(lambda: front.info()["starts"] == 2)
        got += client.ask(b"BID 4 0.0 700 *")
    front.kill()
    wait_until(front.serves_again)
    with front.client() as client:
        got += client.ask(b"BID 5 0.0 800 *")
    tester.tally.check(
        got == [b"item 0.0", b"bid 0.0", *[b"refused 5 Closed"] * 4], f"a clock that goes back an hour: {got}"
    )
    tester.tally.check(front.close() == 0, "the status after a clock that went back")


def unkept_times(tester: FrontTester) -> None:
    """a time that the disk does not keep is not given"""
    if tester.shim is None:
        return tester.tally.skip(unkept_times.__doc__, "there is no C compiler")
    # Four syncs are of FILE.mark and FILE.clock when they are made, and of their folder.
    front = Front(tester, "unkept_times", env=tester.limited({"FSYNC_FAILS": 5}))
    with front.client() as client:
        got = client.ask(b"ITEM 1 2 Vase 10 100 *", b"VIEWUSER 0", b"ITEM 1 2 Vase 10 100 *")
    tester.tally.check(
        got == [b"-ERR not done: no time can be given: Input/output error", SEEN, b"item 0.0"] and front.close() == 0,
        f"a time that is not kept: {got}",
    )


LOG_CHECKS: tuple[Callable[[FrontTester], None], ...] = (
    other_logs,
    deeds_between_fronts,
    deeds_while_it_opens,
    foreign_marks,
    failing_syncs,
    full_disk,
    limited_files,
    refused_write,
    clock,
    unkept_times,
)
