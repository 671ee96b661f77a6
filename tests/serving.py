#!/usr/bin/env python3
"""Shows what clients of examples/front.py may rely on, as docs/SERVING.md says: replies in order, bounds that hold,
clients that disturb no other, and an auction that outlasts kills of the program and of the front. What many clients saw
is judged: whether it is strictly serializable, and whether the log has what was answered.

    tests/serving.py [PROGRAM] [--check REFEREE] [--kills 5] [--only CHECK]
"""

import fcntl
import os
import random
import re
import resource
import shutil
import signal
import socket
import subprocess
import sys
import tempfile
import threading
import time
from argparse import Namespace
from collections import Counter
from contextlib import suppress
from dataclasses import replace
from pathlib import Path
from types import SimpleNamespace

from lib.checks import make_all
from front.audit import Audit
from lib.front_bounds import bounds
from lib.front_clients import languages, loads, other_clients, shown
from lib.front_logs import ANOTHER_LOG, LOG_CHECKS
from lib.front_words import WORD_CHECKS
from lib.fronts import ENDS, FRONT, MEGABYTES, SEEN, UNKNOWN, Client, Front, FrontTester, first_client, packed, script
from lib.misbehaving import hang_up, keep_asking, read_nothing, send_rubbish
from lib.program import BUILT, EXAMPLES, Tally, built, executable, parser_of, run
from lib.sessions import SECONDS, wait_until
from lib.watched import (
    MIX,
    Outcome,
    Seen,
    Start,
    against_time,
    judge,
    judged_by_itself,
    log_is_exact,
    mix,
    referee,
    seen_otherwise,
    watched,
    whole_lines,
)


class ServingTester(FrontTester):
    """Also knows how often programs and fronts are to be killed."""

    def __init__(self, asked: Namespace, folder: Path, tally: Tally) -> None:
        super().__init__(asked, folder, tally)
        self.kills = asked.kills


# Commands and replies.


NAME = b'A, "quoted"  name'
VIEWED = b"viewitem seller=1 category=2 start=10 closes=100 highest=500 bidder=3 bids=1 left=1 name="
# Commands of one connection, and their replies.
ASKED = (
    (b"ITEM 1 2 Vase 10 100 1\r", b"item 0.0"),
    (b"item 1 2 Vase 10 100 1 1", b"item 0.1"),
    (packed(b"Item", b"1", b"2", NAME, b"10", b"100", b"1"), b"item 0.2"),
    (b"BID 3 0.0 500 5", b"bid 0.0"),
    (packed(b"BID", b"3", b"0.2", b"500", b"5"), b"bid 0.1"),
    (b"VIEWITEM 0.0", VIEWED + b"Vase"),
    (packed(b"VIEWITEM", b"0.2"), VIEWED + NAME),
    (b"VIEWBIDS 0.0", b"bids 500:5:3:0.0"),
    (b"BID 3 0.0 500 *", b"refused 5 Closed"),
    (b"BID 3 0.0 9 5", b"refused 4 BelowStart"),
    (b"BUYNOW 3 0.1 1 5", b"buynow 0.0"),
    (b"COMMENT 3 4 0.1 -5", b"comment 0.0"),
    (b"VIEWUSER 4", b"user rating=-5 comments=1"),
    (b"VIEWCATEGORY 2", b"latest 1:0.2 1:0.1 1:0.0"),
    (b"BID 3 0.0", b"-ERR wrong number of fields"),
    (packed(b"BID", b"3,0.0", b"500", b"5"), b"-ERR wrong number of fields"),
    (packed(b"BID", b"3", b"0.0", b'5"00', b"5"), b"-ERR not a number"),
    (packed(b"VIEWUSER", b"0\r0,viewuser,0"), b"-ERR not a number"),
    (packed(b"VIEWUSER", b"0\r1"), b"-ERR wrong number of fields"),
    (packed(b"ITEM", b"1", b"2", b"\xff", b"10", b"100", b"1"), b"-ERR not a name"),
    (b"VIEWUSER 04", b"-ERR not a number"),
    (b"VIEWITEM *", b"-ERR not an item id"),
    (b"COMMENT 3 4 0.1 6", b"-ERR not stars"),
    (b"+ITEM 1 2 Vase 10 100 1", b"-ERR unknown command '+ITEM'"),
    (b"0,viewuser,0", b"-ERR unknown command '0,viewuser,0'"),
    (packed(b"\x1b[2J\xff", b"1"), b"-ERR unknown command '?[2J?'"),
    (b"PING", b"+PONG"),
    (b"COMMAND DOCS", b"*0"),
    (b"VIEWUSER 0", SEEN),
)


def commands(tester: FrontTester) -> None:
    """each kind of request, as a line and as an array, names with commas and quotes, faults in their
    places, and the other commands"""
    front = Front(tester, "commands")
    with front.client() as client:
        for command, reply in ASKED:
            got = client.ask(command)
            tester.tally.check(got == [reply], f"{command!r}: {got}, not {reply!r}")
    with front.client() as client:
        got = client.ask(*(command for command, _ in ASKED[3:11]))
        tester.tally.check(got[0] == b"bid 1.0", f"a second connection is another worker's: {got}")
        got = client.ask(b"PLACES ON", b"VIEWUSER 0", b"BID 3", b"VIEWUSER 0", b"QUIT", b"PING")
        tester.tally.check(
            got
            == [
                b"+OK",
                b"1.1.8 user rating=0 comments=0",
                b"-ERR wrong number of fields",
                b"1.1.9 user rating=0 comments=0",
                b"+OK",
                b"",
            ],
            f"places: {got}",
        )
    with front.client() as client:
        # One write is one group, without the command that has a fault. The last item's name is no item.
        item = packed(b"ITEM", b"1", b"2", b"0.9,0.9,0.9,0.9,0.9,0.9", b"10", b"100", b"1")
        client.ask(
            b"BID 1 0.0 700 *",
            b"VIEWITEM 0.0",
            b"COMMENT 1 2 0.0 5",
            b"VIEWITEM 0.1",
            b"VIEWUSER 0",
            item,
            b"BID 3",
            b"QUIT",
        )
    got = front.info()
    told = got["last_group_requests"], got["busiest_item"], got["busiest_item_requests"]
    tester.tally.check(told == (6, "0.0", 3), f"INFO on the last group: {told}")
    told = [got[name] for name in ("connected_clients", "starts", "under_way", "requests")]
    tester.tally.check(
        told == [1, 1, 0, 31] and 0 < got["groups"] <= 26 and 0 < got["group_microseconds"] < 1e6 * SECONDS,
        f"INFO: {got}",
    )
    tester.tally.check(front.close() == 0, "the status after SIGTERM")
    tester.tally.check(whole_lines(front.log)[2] == '0,+item,1,2,"A, ""quoted""  name",10,100,1,1', "the log")
    judged_by_itself(tester, front)


# Commands of a pipeline beside bids, and their replies.
AT_ONCE = (
    (b"PING", b"+PONG"),
    (b"BID 1", b"-ERR wrong number of fields"),
    (b"VIEWUSER 1", SEEN),
    (b"", None),
    (b"X", b"-ERR unknown command 'X'"),
)


def pipelines(tester: FrontTester) -> None:
    """pipelines of thousands of commands on one connection, cut anywhere: each reply in its place"""
    front, draw = Front(tester, "pipelines", rows=mix()[0]), random.Random(1)
    with front.client() as client:
        data, wanted = b"", []
        for number in range(1500):
            command, reply = draw.choice(AT_ONCE)
            if draw.random() < 0.5:
                bids = sum(line[:4] == b"bid " for line in wanted)
                command, reply = b"BID 1 0.0 500 %d" % number, b"bid 0.%d" % bids
            data += packed(*command.split()) + b"\n" if command and draw.random() < 0.5 else command + b"\r\n"
            wanted += [] if reply is None else [reply]
        threading.Thread(target=in_pieces, args=(client, data, draw), daemon=True).start()
        got = [client.reply() for _ in wanted]
    at = next((at for at, (one, two) in enumerate(zip(got, wanted)) if one != two), None)
    tester.tally.check(at is None, f"reply {at} of a pipeline: {got[at or 0]!r}, not {wanted[at or 0]!r}")
    front.close()
    judged_by_itself(tester, front)


def in_pieces(client: Client, data: bytes, draw: random.Random) -> None:
    while data:
        size = draw.choice((1, 7, 100, 5000, 20_000))
        client.send(data[:size])
        data = data[size:]


# Clients that misbehave.


def misbehaving(tester: FrontTester) -> None:
    """readers that do not read, clients that hang up, and rubbish: another client waits less than a
    second, and the front stays small"""
    front, draw = Front(tester, "misbehaving", rows=mix()[0]), random.Random(2)
    waits, over = [], threading.Event()
    steady = threading.Thread(target=keep_asking, args=(front, waits, over))
    steady.start()
    with front.client() as client:
        client.ask(*(b"BID 99 0.0 %d 99999999" % (10**19 + number) for number in range(10)))
    for misbehave in (read_nothing, hang_up, send_rubbish):
        count = len(waits)
        misbehave(tester, front, draw)
        wait_until(lambda: len(waits) > count)
        longest = max(waits[count:])
        tester.tally.check(
            longest < 1 and front.most_megabytes() < MEGABYTES,
            f"{misbehave.__name__}: a wait of {longest:.2f} s, {front.most_megabytes():.0f} MB",
        )
    over.set()
    steady.join()
    wait_until(lambda: front.info()["under_way"] == 0)
    tester.tally.check(front.info()["starts"] == 1, "the program was not started again")
    tester.tally.check(front.close() == 0, "the status after all")
    judged_by_itself(tester, front)


# One wait for the disk; and ends.


def group_commit(tester: FrontTester) -> None:
    """what 100 clients ask for while the program is busy is one part, or two"""
    front = Front(tester, "groups", rows=mix()[0])
    clients = [front.client() for _ in range(100)]
    before = front.info()
    with front.held():
        for client in clients:
            client.send(b"BID 1 0.0 500 5\n")
        wait_until(lambda: front.info()["under_way"] == 100)
    got = sorted(client.reply() for client in clients)
    after = front.info()
    tester.tally.check(
        len(set(got)) == 100 and all(line.startswith(b"bid ") for line in got), f"replies to 100 clients: {got[:3]}"
    )
    tester.tally.check(after["groups"] - before["groups"] <= 2, f"{after['groups'] - before['groups']} groups")
    for client in clients:
        client.__exit__()
    front.close()


def outcomes(tester: FrontTester) -> None:
    """a program that is killed: its stores are unknown, its views are asked again, in the order of their requests;
    and nothing else is disturbed"""
    front = Front(tester, "outcomes", rows=b"0,+bi")
    with front.client() as client, front.client() as other:
        client.ask(b"ITEM 1 2 Vase 10 100 1")
        with front.held() as engine:
            client.send(b"BID 3 0.0 500 5\nVIEWUSER 0\nPING\nBUYNOW 3 0.0 1 5\nVIEWBIDS 0.0\n")
            wait_until(lambda: front.info()["under_way"] == 4)
            os.kill(engine, signal.SIGKILL)
        got = [client.reply() for _ in range(5)]
        tester.tally.check(got == [UNKNOWN, SEEN, b"+PONG", UNKNOWN, b"bids"], f"after a kill: {got}")
        tester.tally.check(other.ask(b"BID 3 0.0 500 5") == [b"bid 1.0"], "another client goes on")
    tester.tally.check(
        front.info()["starts"] == 2 and "5 bytes of a cut line" in front.said.read_text(),
        f"the program was started again: {front.said.read_text()}",
    )
    front.close()
    judged_by_itself(tester, front)


# A program that is asked for three bids or views, and ends when it has answered the last and the first. Its
# next start answers all three.
CUT_OFF = """\
#!/usr/bin/env python3
import os, sys
kinds = [sys.stdin.readline().split(",")[1] for _ in range(3)]
if not os.path.exists("began"):
    open("began", "w")
    reply, other = ("bid 0.0", "bid 0.1") if "bid" in kinds else ["user rating=5 comments=1"] * 2
    print(f"0 1 0 2 {reply}\\n0 2 0 0 {other}")
    sys.exit(7)
for index in range(3):
    print(f"0 {index} 0 {index} user rating=0 comments=0", flush=True)
sys.stdin.read()
"""


def cut_parts(tester: FrontTester) -> None:
    """a program that ends in the middle of its replies: none that has an unanswered request before it is released, what
    is kept is a history, and views are asked anew"""
    program = script(tester.folder / "cut_off", CUT_OFF)
    for request, reply in ((b"BID 1 0.0 500 5", UNKNOWN), (b"VIEWUSER 1", SEEN)):
        place = tester.folder / f"cut_{request[:3].decode()}"
        place.mkdir()
        front = Front(tester, f"{place.name}_parts", program=program, cwd=place)
        with front.client() as client:
            got = client.ask(*[request] * 3)
        kept = [(front.audit / name).read_bytes() for name in ("1.csv", "1.history")]
        tester.tally.check(got == [reply] * 3 and kept == [b"", b""], f"a part that is cut off: {got}, {kept}")
        front.process.kill()


# A program whose worker 0 has all the rows that it may have.
IS_FULL = """\
#!/usr/bin/env python3
import sys
for line in sys.stdin:
    if line.startswith("0,bid"):
        print("rubis_auction: more than 2147483648 requests for a worker", file=sys.stderr)
    else:
        print("0 0 0 0 user rating=0 comments=0", flush=True)
"""


def full_workers(tester: FrontTester) -> None:
    """a store past a worker's limit: an error, and the next request is answered"""
    front = Front(tester, "full_workers", program=script(tester.folder / "full", IS_FULL))
    with front.client() as client:
        got = client.ask(b"BID 1 0.0 500 5", b"VIEWUSER 0")
    tester.tally.check(
        got == [b"-ERR more than 2147483648 requests for a worker", SEEN] and front.close() == 0,
        f"a worker that is full: {got}",
    )


def waits_for_the_log(tester: FrontTester) -> None:
    """a log that another program still has, as that of a front that was killed: what is kept
    begins with all of its rows"""
    log, row = tester.folder / "waited", mix()[0].splitlines(True)[0]
    log.write_bytes(row)
    with log.open("ab") as other:
        fcntl.flock(other, fcntl.LOCK_EX)
        front = Front(tester, "waits_for_the_log", log=log, waits=False)
        wait_until(lambda: "status 5" in front.said.read_text())
        other.write(row)
    wait_until(lambda: front.is_there() and kept_rows(front) == [row + row])
    tester.tally.check(kept_rows(front) == [row + row], "the rows of a log are kept before the first reply")
    with front.client() as client:
        tester.tally.check(client.ask(b"VIEWITEM 0.1")[0].startswith(b"viewitem"), "a row that was written late")
    front.close()
    kept = kept_rows(front)
    tester.tally.check(kept == [row + row + b"0,viewitem,0.1\n"], f"the rows of a log that was waited for: {kept}")


def kept_rows(front: Front) -> list[bytes]:
    """The rows and requests that the referee is given, of each start of the program."""
    return [path.read_bytes() for path in front.audit.glob("*.csv")]


def terminated(tester: FrontTester) -> None:
    """SIGTERM: what was asked is answered, nothing more is taken, and the status is 0; by itself and under load"""
    front = Front(tester, "terminated")
    with front.client() as client, front.client() as other:
        client.ask(b"ITEM 1 2 Vase 10 100 1")
        with front.held():
            client.send(b"BID 3 0.0 500 5\n")
            wait_until(lambda: front.info()["under_way"] == 1)
            front.process.terminate()
            # Once it has replied a few times it has taken the signal.
            got = [*(reply for _ in range(3) for reply in other.ask(b"PING"))]
            other.send(b"VIEWUSER 0\n")
            wait_until(lambda: front.info()["under_way"] == 2)
        got += [client.reply(), other.reply(), other.reply()]
        tester.tally.check(got == [b"+PONG"] * 3 + [b"bid 0.0", ENDS, b""], f"replies after SIGTERM: {got}")
    tester.tally.check(front.process.wait(SECONDS) == 0, "the status after SIGTERM")
    front = Front(tester, "under_load", rows=mix()[0])
    outcome = watched(front, front.process.terminate)
    status = front.process.wait(SECONDS)
    tester.tally.check(status == 0 and UNKNOWN not in outcome.refused, f"status {status}, {outcome.refused}")
    judge(tester, front, outcome)
    judged_by_itself(tester, front)


def limit_files() -> None:
    resource.setrlimit(resource.RLIMIT_FSIZE, (10_000, 10_000))


def kept_in_order(tester: FrontTester) -> None:
    """a history that cannot be written: the requests of its lines are kept already, so a front that is killed in
    between keeps no reply without its request; and rows of a log that cannot all be kept: there is no history"""
    audit, client = Audit(tester.folder / "in_order", 1, None), SimpleNamespace(worker=0)
    with open("/dev/full", "wb", buffering=0) as audit.history, suppress(OSError):
        audit.keep(
            [b"0 0 0 0 user rating=0 comments=0"] * 100, [SimpleNamespace(client=client, record=b"viewuser,0")] * 100
        )
    kept = whole_lines(tester.folder / "in_order" / "1.csv")
    tester.tally.check(kept == ["0,viewuser,0"] * 100, f"{len(kept)} requests kept before their history")
    front = Front(tester, "cut_audit", rows=mix()[0] * 10, waits=False, preexec_fn=limit_files)
    status, kept = front.process.wait(SECONDS), [path.name for path in front.audit.iterdir()]
    tester.tally.check(status == 1 and kept == ["1.csv"], f"rows that cannot all be kept: status {status}, {kept}")


UNIT = EXAMPLES / "front.service"


def service(tester: FrontTester) -> None:
    """front.service: systemd takes it, and its command, with a socket of the file system, serves by its own
    clock and ends with status 0"""
    tester.tally.check(
        f"RestartPreventExitStatus={ANOTHER_LOG}\n" in UNIT.read_text(), "no start on a log that was changed"
    )
    text = (
        UNIT.read_text()
        .replace("/usr/local/lib/fundreivo", str(EXAMPLES))
        .replace("/usr/local/bin/rubis_auction", str(tester.program))
    )
    unit, place, state = tester.folder / "auction.service", tester.folder / "socket", tester.folder / "state"
    unit.write_text(text)
    state.mkdir()
    if shutil.which("systemd-analyze") is None:
        tester.tally.skip("front.service", "systemd-analyze is not installed")
    else:
        got = run(["systemd-analyze", "verify", unit])
        tester.tally.check((got.status, got.stderr) == (0, b""), f"systemd-analyze: {got}")
    words = re.search(r"(?m)^ExecStart=(.*)", text)[1].replace("${STATE_DIRECTORY}", str(state)).split()
    process = subprocess.Popen([sys.executable, "-B", words[1], "--unix", place, *words[2:]], stderr=subprocess.DEVNULL)
    Front.started.append(process)
    with first_client(place) as client:
        tester.tally.check(client.ask(b"ITEM 1 2 Vase 10 99999999999999 *") == [b"item 0.0"], "a reply of the service")
    process.terminate()
    tester.tally.check(process.wait(SECONDS) == 0, "the status of the service")
    (row,) = whole_lines(state / "auction.rows")
    written = re.fullmatch(r'0,\+item,1,2,"Vase",10,99999999999999,(\d+),1', row)
    tester.tally.check(
        written is not None and abs(int(written[1]) / 1000 - time.time()) < SECONDS, f"the log of the service: {row}"
    )


def without_a_way_on(tester: FrontTester) -> None:
    """ends with status 1: a program that dies without a log, a log that cannot be opened, a port in use, an audit
    that cannot be kept"""
    free = Front(tester, "unlogged")
    words = [word for word in free.words if word not in ("--log", str(free.log))]
    free.close()
    with tempfile.TemporaryFile() as said:
        process = subprocess.Popen([*FRONT, "--port", str(free.port), *words], stderr=said)
        front = SimpleNamespace(process=process, port=free.port)
        wait_until(lambda: is_served(free.port))
        with Client(free.port) as client:
            tester.tally.check(client.ask(b"VIEWUSER 0") == [SEEN], "a front without a log")
            os.kill(Front.engine(front), signal.SIGKILL)
            tester.tally.check(process.wait(SECONDS) == 1, "the status of a front without a log")
    front = Front(tester, "foreign", rows=b"not a log\n")
    tester.tally.check(
        front.process.wait(SECONDS) == 1 and front.said.read_text().count("record 1: not a number") == 6,
        f"a foreign log: {front.said.read_text()}",
    )
    with socket.create_server(("127.0.0.1", 0)) as taken:
        got = run([*FRONT, "--port", str(taken.getsockname()[1]), tester.program])
        tester.tally.check(
            got.status == 1 and got.stderr.startswith(b"front: ") and b"in use" in got.stderr, f"a port in use: {got}"
        )
    front = Front(tester, "unkept", preexec_fn=limit_files)
    with front.client() as client:
        client.send(b"VIEWUSER 0\n" * 2000)
        got = Counter(iter(client.reply, b""))
        tester.tally.check(
            front.process.wait(SECONDS) == 1 and got[SEEN] < 2000,
            f"an audit that cannot be kept: {got}, {front.said.read_text()}",
        )
    kept = [len(whole_lines(path)) for path in (front.audit / "1.csv", front.audit / "1.history")]
    tester.tally.check(got[SEEN] <= min(kept), f"{got[SEEN]} replies of which the audit keeps {kept}")


def is_served(port: int) -> bool:
    with suppress(OSError), Client(port) as client:
        return client.ask(b"PING") == [b"+PONG"]
    return False


# Kills, judged; and whether the judge sees errors.


def engine_kills(tester: ServingTester) -> None:
    """100 clients while the program is killed and started again; and errors planted in what was
    kept and seen, which are found"""
    front = Front(tester, "engine_kills", rows=mix()[0])
    outcome = watched(front, *[front.kill_engine] * tester.kills)
    tester.tally.check(front.info()["starts"] == tester.kills + 1, f"{front.info()['starts']} starts")
    tester.tally.check(
        set(outcome.refused) <= {UNKNOWN} and not outcome.lost, f"{outcome.refused}, {outcome.lost} lost"
    )
    tester.tally.check(front.most_megabytes() < MEGABYTES and front.close() == 0, "memory and status")
    starts = judge(tester, front, outcome)
    judged_by_itself(tester, front)
    planted(tester, starts, outcome, whole_lines(front.log))


def planted(tester: FrontTester, starts: list[Start], outcome: Outcome, log: list[str]) -> None:
    start = max(starts, key=lambda start: len(start.history))
    of_bids = [at for at, (_, _, text) in enumerate(start.history) if text.startswith("bid ")]
    swapped = start.history.copy()
    for at, other in zip(of_bids[:2], of_bids[1::-1]):
        swapped[at] = start.history[at][:2] + start.history[other][2:]
    place, seen = next((place, seen) for place, seen in outcome.seen.items() if seen.text.startswith("bid "))
    changed = replace(outcome, seen=outcome.seen | {place: replace(seen, text=seen.text + "0")})
    first, last = ((start.number, *start.history[at][:2]) for at in (0, -1))
    late = Outcome({first: Seen(sent=9, answered=10, text=""), last: Seen(sent=5, answered=6, text="")})
    for what, wanted, found in (
        ("a changed reply", "1 seen otherwise", seen_otherwise(starts, changed)),
        ("two swapped replies", " was due", referee(tester, replace(start, history=swapped))),
        ("a lost row", "the log has other rows", log_is_exact(starts, log[: MIX.items] + log[MIX.items + 1 :])),
        ("a row too many", "1 rows behind", log_is_exact(starts, [*log, log[-1]])),
        ("a request that comes before one that was answered earlier", "1 against time", against_time(starts, late)),
    ):
        tester.tally.check(wanted in found, f"{what}: {found!r}")


def front_kills(tester: ServingTester) -> None:
    """100 clients while the front is killed and started again"""
    front = Front(tester, "front_kills", rows=mix()[0])
    outcome = watched(front, *[front.kill] * tester.kills)
    tester.tally.check(front.close() == 0, "the status after kills")
    starts = judge(tester, front, outcome)
    tester.tally.check(
        len(starts) > tester.kills and outcome.lost > 0, f"{len(starts)} starts, {outcome.lost} replies lost"
    )


CHECKS = (
    commands,
    pipelines,
    other_clients,
    languages,
    loads,
    shown,
    bounds,
    misbehaving,
    group_commit,
    outcomes,
    cut_parts,
    full_workers,
    waits_for_the_log,
    terminated,
    kept_in_order,
    service,
    without_a_way_on,
    *WORD_CHECKS,
    *LOG_CHECKS,
    engine_kills,
    front_kills,
)


def main() -> None:
    words = parser_of(__doc__)
    words.add_argument("program", nargs="?", type=executable, default=str(BUILT))
    words.add_argument("--check", type=executable, default=str(built("rubis_check")), help="the referee")
    words.add_argument("--kills", type=int, default=5, help="of the program, and of the front")
    make_all(words, CHECKS, ServingTester)


if __name__ == "__main__":
    main()
