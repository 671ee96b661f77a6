#!/usr/bin/env python3
"""Shows that an auction of examples/front_quorum.py on three machines goes on while any one of them fails, and that all
its leaders served one auction: what 50 clients saw is judged over all of them. The machines are network namespaces, or
all on loopback where those cannot be made. Needs Debian's etcd-server and etcd-client.

    tests/quorum.py [PROGRAM] [--check REFEREE]
"""

import asyncio
import ctypes
import json
import os
import shutil
import signal
import socket
import subprocess
import sys
import threading
import time
from contextlib import ExitStack, suppress
from pathlib import Path
from types import SimpleNamespace
from typing import Callable

from lib.bidders import Bidders
from lib.front_logs import CLOCK, DEEDS
from lib.fronts import ENDS, UNKNOWN, WORKERS, Client, Front, FrontTester, first_client, load, script
from lib.program import BUILT, EXAMPLES, Tally, built, executable, parser_of, run, servers_folder
from lib.sessions import SECONDS, wait_until
from lib.watched import PIPELINE, Outcome, Watcher, against_time, judge, judged_by_itself, mix

MACHINES = (1, 2, 3)
PORTS = 3  # of a machine: of its front, and two of its server of etcd
CLIENTS = 50
MORE = 1000  # replies show that it goes on: more than were under way
TRIES = 5  # of what a busy machine can spoil
# Statuses: of a front that can lead no longer, and of one whose own log fails or was changed.
NO_LEADER, NO_LOG = 6, 8
FAILURES = 20  # syncs that fail
PATIENCE = 2e9  # nanoseconds in which a client expects a reply
ELECTION = ("--heartbeat-interval", "200", "--election-timeout", "2000", "--pre-vote")
LIBC, NEW_NETWORK = ctypes.CDLL(None), 0x40000000


class Network:
    """A namespace for each machine, and this one, on a bridge; or none, and all are on loopback."""

    def __init__(self, is_wanted: bool = True) -> None:
        home, self.spaces = os.open("/proc/self/ns/net", os.O_RDONLY), {}
        if is_wanted and not (shutil.which("ip") and shutil.which("nsenter") and self.make()):
            LIBC.setns(home, NEW_NETWORK)
            self.spaces = {}

    def make(self) -> bool:
        """They are gone with their last process."""
        for machine in (*MACHINES, 0):
            if LIBC.unshare(NEW_NETWORK):
                return False
            self.spaces[machine] = os.open("/proc/self/ns/net", os.O_RDONLY)
        if not self.ip(
            0, "link set lo up", "link add hub type bridge", "addr add 10.87.65.254/24 dev hub", "link set hub up"
        ):
            return False
        return all(
            self.ip(
                0,
                f"link add port{machine} type veth peer name eth0 netns {self.path(machine)}",
                f"link set port{machine} master hub up",
            )
            and self.ip(machine, f"addr add {self.address(machine)}/24 dev eth0", "link set eth0 up", "link set lo up")
            for machine in MACHINES
        )

    def ip(self, machine: int, *commands: str) -> bool:
        return run([*self.inside(machine), "ip", "-batch", "-"], "\n".join(commands).encode()).status == 0

    def inside(self, machine: int) -> list[str]:
        """The words before a command that runs on a machine."""
        return ["nsenter", f"--net={self.path(machine)}"] if self.spaces else []

    def path(self, machine: int) -> str:
        return f"/proc/{os.getpid()}/fd/{self.spaces[machine]}"

    def address(self, machine: int) -> str:
        return f"10.87.65.{machine}" if self.spaces else "127.0.0.1"

    def cut(self, machine: int) -> bool:
        """Between a machine and the others everything is lost, as at an address that nobody
        has; clients still reach it."""
        pairs = [pair for other in MACHINES if other != machine for pair in ((machine, other), (other, machine))]
        return all(
            self.ip(one, f"neigh replace {self.address(two)} lladdr 02:00:00:00:00:00 nud permanent dev eth0")
            for one, two in pairs
        )

    def heal(self) -> None:
        for one in MACHINES:
            self.ip(one, *(f"neigh del {self.address(two)} dev eth0" for two in MACHINES if two != one))


def free_ports(count: int) -> list[int]:
    """So many ports that are free, no two the same."""
    with ExitStack() as held:
        return [held.enter_context(socket.create_server(("127.0.0.1", 0))).getsockname()[1] for _ in range(count)]


class Machine(Front):
    """A server of etcd, and a front."""

    def __init__(self, number: int, cluster: "Cluster") -> None:
        self.number, self.folder, self.inside = number, cluster.folder / str(number), cluster.network.inside(number)
        self.folder.mkdir()
        self.log, self.said, self.address = self.folder / "rows", self.folder / "said", cluster.network.address(number)
        self.statuses: list[int] = []
        self.port, *ports = (next(cluster.ports) for _ in range(PORTS))
        self.asked_at, self.agrees_at = (f"{self.address}:{port}" for port in ports)

    def start(self) -> None:
        with self.said.open("ab") as said:
            self.began_at = said.tell()
            self.process = subprocess.Popen(self.words, stderr=said)
        self.started.append(self.process)

    def start_etcd(self, machines: list["Machine"]) -> None:
        members = ",".join(f"{machine.number}=http://{machine.agrees_at}" for machine in machines)
        places = {
            "listen-client": self.asked_at,
            "advertise-client": self.asked_at,
            "listen-peer": self.agrees_at,
            "initial-advertise-peer": self.agrees_at,
        }
        urls = (word for name, place in places.items() for word in (f"--{name}-urls", f"http://{place}"))
        command = [*self.inside, "etcd", "--name", str(self.number), "--data-dir", self.folder / "etcd"]
        words = [*command, "--initial-cluster", members, *urls, *ELECTION]
        with (self.folder / "etcd_said").open("ab") as said:
            self.etcd = subprocess.Popen(words, stdout=said, stderr=said)
        self.started.append(self.etcd)

    def has_started(self) -> bool:
        last = self.said.read_bytes()[self.began_at :].splitlines()[-1:]
        return bool(last) and last[0].startswith((b"front: waits", b"front: serves"))

    def ask_late(self, undo: Callable[[], None]) -> bytes:
        """What is replied to a client of this front that asked for a view before something was undone."""
        with suppress(OSError), socket.create_connection((self.address, self.port), SECONDS) as client:
            client.sendall(b"VIEWITEM 0.0\n")
            undo()
            return client.recv(1000)
        undo()
        return b""


class Cluster:
    """Machines. Their fronts are started again whenever they end, as by systemd."""

    made: list["Cluster"] = []

    def __init__(
        self,
        tester: FrontTester,
        network: Network,
        name: str,
        machines: tuple[int, ...] = MACHINES,
        program: Path | None = None,
    ) -> None:
        self.tester, self.network, self.folder = tester, network, tester.folder / name
        self.audit, self.program, self.is_over = self.folder / "audit", program or tester.program, threading.Event()
        self.made.append(self)
        self.folder.mkdir()
        self.ports = iter(free_ports(PORTS * len(machines)))
        self.machines = [Machine(number, self) for number in machines]
        self.etcd = ",".join(machine.asked_at for machine in self.machines)
        for machine in self.machines:
            machine.start_etcd(self.machines)
            machine.words = self.words(machine)
        tester.tally.check(any(self.etcdctl("del", "leader") == b"0\n" for _ in range(SECONDS)), "etcd serves")

    def words(self, machine: Machine) -> list[str]:
        """The command of a front."""
        place = ("--host", machine.address, "--port", machine.port, "--log", machine.log, "--audit", self.audit)
        front = (sys.executable, "-B", EXAMPLES / "front_quorum.py", "--etcd", self.etcd, "--workers", WORKERS)
        words = (*front, *place, self.program, "--fast")
        return [*machine.inside, *map(str, words)]

    def start(self, rows: bytes) -> None:
        self.etcdctl("put", "log/0000000000000000", stdin=rows)
        for machine in self.machines:
            machine.start()
        self.starter = threading.Thread(target=self.start_again, daemon=True)
        self.starter.start()

    def start_again(self) -> None:
        while not self.is_over.wait(0.1):
            for machine in self.machines:
                if machine.process.poll() is not None:
                    machine.statuses.append(machine.process.returncode)
                    machine.start()

    def etcdctl(self, *words: str, at: str | None = None, stdin: bytes = b"") -> bytes:
        return run(["etcdctl", "--endpoints", at or self.etcd, *words], stdin).stdout

    def rows(self) -> bytes:
        told = self.etcdctl("get", "log/", "--prefix", "--print-value-only")
        return b"".join(line for line in told.splitlines(True) if line.strip())

    def leader(self) -> Machine:
        """The machine of the front that leads, as the first server of etcd says that can tell."""
        fronts = {f"{machine.address}:{machine.port}": machine for machine in self.machines}
        for machine in self.machines * SECONDS:
            words = ("get", "leader", "--print-value-only", "--command-timeout", "1s")
            place = self.etcdctl(*words, at=machine.asked_at).decode().strip()
            if place in fronts:
                return fronts[place]
        raise LookupError("no front leads")

    def leader_of_etcd(self) -> Machine:
        """The machine of the server of etcd that leads, once all can tell."""
        for _ in range(SECONDS):
            states = {
                each["Endpoint"]: each["Status"]
                for each in json.loads(self.etcdctl("endpoint", "status", "--write-out", "json") or "[]")
            }
            leaders = [
                machine
                for machine in self.machines
                if (state := states.get(machine.asked_at)) and state.get("leader") == state["header"]["member_id"]
            ]
            if len(states) == len(self.machines) and len(leaders) == 1:
                return leaders[0]
        raise LookupError("no server of etcd leads")

    def serves(self, what: str) -> None:
        wanted = self.replies() + MORE
        wait_until(lambda: self.replies() >= wanted)
        self.tester.tally.check(
            self.replies() >= wanted, f"goes on {what}: {wanted - self.replies()} replies are lacking"
        )

    def close(self) -> list[list[int]]:
        """The statuses of each front, once all have started: of those that wait, and of the leader."""
        wait_until(lambda: all(machine.has_started() for machine in self.machines))
        self.is_over.set()
        self.starter.join()
        return [
            self.stopped(machine)
            for machine in sorted(self.machines, key=lambda machine, leader=self.leader(): machine is leader)
        ]

    def stopped(self, machine: Machine) -> list[int]:
        """The statuses of a front that is stopped. On a busy machine its lease may end before: then it is
        started and stopped once more."""
        statuses = [machine.close()]
        while statuses[-1] == NO_LEADER and len(statuses) < TRIES:
            machine.start()
            wait_until(machine.has_started)
            statuses.append(machine.close())
        return statuses


class Follower(Watcher):
    """A client that tries one front after the other."""

    sent = ()

    async def run(self, places: list[tuple[str, int]]) -> None:
        loop = asyncio.get_running_loop()
        while load.CLOCK() < self.asked.until:
            for place in places:
                self.closed = loop.create_future()
                with suppress(OSError):
                    await asyncio.wait_for(loop.create_connection(lambda: self, *place), 1)
                    await self.closed
            await asyncio.sleep(0.1)

    def hang_up(self) -> None:
        """If there is no reply for too long."""
        if self.sent and load.CLOCK() - self.sent[-1] > PATIENCE:
            self.transport.abort()


def followed(cluster: Cluster, *events: Callable[[Cluster], None]) -> Outcome:
    """A load of 50 clients, and events one after the other meanwhile."""
    commands = load.commands_of(mix()[1])
    asked = SimpleNamespace(pipeline=PIPELINE, seconds=SECONDS * len(events))
    followers = [Follower(commands, at, asked) for at in range(0, len(commands), len(commands) // CLIENTS)]
    cluster.replies = lambda: sum(len(follower.seen) for follower in followers)

    async def lead() -> None:
        for event in events:
            await asyncio.to_thread(event, cluster)
        asked.until = 0

    async def hang_up() -> None:
        while True:
            await asyncio.sleep(0.2)
            for follower in followers:
                follower.hang_up()

    async def drive() -> None:
        places = [(machine.address, machine.port) for machine in cluster.machines]
        impatience = asyncio.create_task(hang_up())
        await asyncio.gather(load.drive(followers, asked, places=places), lead())
        impatience.cancel()

    asyncio.run(drive())
    outcome = Outcome()
    for follower in followers:
        outcome.seen |= follower.seen
        outcome.refused += follower.refused
    return outcome


# What happens to the machines.


def nothing(cluster: Cluster) -> None:
    cluster.serves("at the beginning")


def kill_program(cluster: Cluster) -> None:
    cluster.leader().kill_engine()
    cluster.serves("after a kill of the program")


def kill_leader(cluster: Cluster) -> None:
    cluster.leader().process.kill()
    cluster.serves("after a kill of the leader")


def kill_etcd(cluster: Cluster) -> None:
    machine = cluster.leader_of_etcd()
    machine.etcd.kill()
    machine.etcd.wait()
    cluster.serves("without a server of etcd")
    machine.start_etcd(cluster.machines)


def freeze_leader(cluster: Cluster) -> None:
    leader = cluster.leader()
    process = leader.process
    process.send_signal(signal.SIGSTOP)
    cluster.serves("while the leader is frozen")
    leads_no_longer(cluster, leader, process, lambda: process.send_signal(signal.SIGCONT))


def cut_leader(cluster: Cluster) -> None:
    if not cluster.network.spaces:
        return cluster.tester.tally.skip("a machine that is cut off", "network namespaces cannot be made")
    leader = cluster.leader()
    process = leader.process
    cluster.tester.tally.check(cluster.network.cut(leader.number), "a machine is cut off")
    cluster.serves("while the leader is cut off")
    leads_no_longer(cluster, leader, process, cluster.network.heal)


def cut_etcd(cluster: Cluster) -> None:
    """The machine of the server of etcd that leads, whichever front leads."""
    if cluster.network.spaces:
        machine = cluster.leader_of_etcd()
        cluster.tester.tally.check(cluster.network.cut(machine.number), "the machine of etcd's leader is cut off")
        cluster.serves("while the server of etcd that led is cut off")
        cluster.network.heal()


def cut_idle_leader(cluster: Cluster) -> None:
    """It has no store that waits for etcd, and views behind it."""
    if cluster.network.spaces:
        leader = cluster.leader()
        cluster.tester.tally.check(cluster.network.cut(leader.number), "an idle machine is cut off")
        leads_no_longer(cluster, leader, leader.process, cluster.network.heal)


def leads_no_longer(cluster: Cluster, leader: Machine, process: subprocess.Popen, undo: Callable[[], None]) -> None:
    """Once another front leads, a front answers nothing, not even a view, and ends."""
    wait_until(lambda: cluster.leader() is not leader)
    got = leader.ask_late(undo)
    cluster.tester.tally.check(
        got == b"" and process.wait(SECONDS) == NO_LEADER,
        f"what a front replies that leads no longer: {got}, status {process.poll()}",
    )


def stop_leader(cluster: Cluster) -> None:
    """On a busy machine its lease may end meanwhile, and the status is another: then the next leader is stopped."""
    statuses = []
    while 0 not in statuses and len(statuses) < TRIES:
        process = cluster.leader().process
        process.terminate()
        statuses.append(process.wait(SECONDS))
    cluster.tester.tally.check(statuses[-1] == 0, f"the statuses of leaders that are stopped: {statuses}")
    cluster.serves("after the leader was stopped")


def keeps_rows(cluster: Cluster) -> None:
    """A front does not write a log anew if that has all rows that there are."""
    machine, rows = cluster.machines[0], mix()[0]
    machine.log.write_bytes(rows)
    got = run(machine.words)
    cluster.tester.tally.check(
        got.status == 1 and b"has rows, and etcd has none" in got.stderr and machine.log.read_bytes() == rows,
        f"an etcd without rows: {got}",
    )
    machine.log.unlink()
    cluster.etcdctl("del", "leader")


def failures(tester: FrontTester) -> None:
    """50 clients of three machines while programs, a leader and a server of etcd are killed, leaders are frozen, cut
    off and stopped; judged over all leaders"""
    check, cluster = tester.tally.check, Cluster(tester, Network(), "failures")
    keeps_rows(cluster)
    cluster.start(mix()[0])
    kills, cuts = (kill_program, kill_leader, kill_etcd), (freeze_leader, cut_leader, cut_etcd)
    outcome = followed(cluster, nothing, *kills, *cuts, stop_leader)
    cut_idle_leader(cluster)
    check(set(outcome.refused) <= {UNKNOWN, ENDS}, f"refused: {outcome.refused}")
    last, rows = cluster.leader(), cluster.rows()
    statuses = cluster.close()
    check(
        [tried[-1] for tried in statuses] == [0, 0, 0],
        f"statuses of fronts that wait, and of the leader, when they are stopped: {statuses}",
    )
    check(last.log.read_bytes() == rows, "the log of the last leader has the rows of etcd")
    served = SimpleNamespace(audit=cluster.audit, log=last.log, folder=last.folder, said=last.said)
    starts = judge(tester, served, outcome)
    judged_by_itself(tester, served, str(starts[-1].number))
    check(len(starts) >= 5 + bool(cluster.network.spaces), f"{len(starts)} starts")
    check("against time" in against_time(starts[::-1], outcome), "leaders in another order are against time")


# Syncs that take as long as those of a disk, of which a file tells which one fails.
SLOW_SYNCS = """\
#!/bin/sh
LD_PRELOAD={shim} LOG_SYNC_TAKES=20 LOG_SYNC_FAILS=$(cat {fails}) exec {program} "$@"
"""


def own_log(tester: FrontTester) -> None:
    """a leader under load whose sync fails, 20 times, and whose log is moved, removed, emptied, cut and replaced: it
    ends with a status of its own, and the next start leads with all that was acknowledged, once each"""
    if tester.shim is None:
        return tester.tally.skip(own_log.__doc__, "there is no C compiler")
    fails = tester.folder / "fails"
    words = {"shim": tester.shim, "fails": fails, "program": tester.program}
    program = script(tester.folder / "slow_syncs", SLOW_SYNCS.format(**words))
    cluster = Cluster(tester, Network(is_wanted=False), "own_log", machines=(1,), program=program)
    (machine,), check = cluster.machines, tester.tally.check
    fails.write_text("3")
    cluster.start(b'0,+item,1,2,"Vase",10,99999999999999,1,1\n')
    with Bidders(lambda: Client(machine.port)) as bidders:
        for failure in range(FAILURES):
            wait_until(lambda: len(machine.statuses) > failure)
            fails.write_text(str(4 + failure % 9))
        fails.write_text("0")
        for deed in DEEDS:
            count, ends = len(bidders.acknowledged), len(machine.statuses)
            wait_until(lambda: len(bidders.acknowledged) > count + 100)
            deed(machine.log)
            wait_until(lambda: len(machine.statuses) > ends)
            check(machine.statuses[ends:] == [NO_LOG], f"{deed.__name__}: statuses {machine.statuses[ends:]}")
        wait_until(lambda: len(bidders.acknowledged) > count + 200)
    rows = cluster.rows()
    statuses = machine.statuses[:FAILURES]
    check(statuses == [NO_LOG] * FAILURES, f"statuses after syncs that failed: {statuses}")
    check(cluster.close() == [[0]], f"the status of the last leader: {machine.said.read_text()[-300:]}")
    check(machine.log.read_bytes() == rows, "the log of the last leader has the rows of etcd")
    check(set(bidders.others) <= {UNKNOWN, ENDS}, f"other replies: {set(bidders.others)}")
    bidders.judge(tester.tally, "rows of etcd", rows)


def clocks(tester: FrontTester) -> None:
    """a leader whose clock is an hour ahead, and the next one, whose clock is not: an item that was closed stays so"""
    shift, closes = tester.folder / "shift", int(1000 * time.time()) + 1_800_000
    cluster = Cluster(tester, Network(is_wanted=False), "clocks", machines=(1,))
    (machine,) = cluster.machines
    at = machine.words.index(str(EXAMPLES / "front_quorum.py"))
    machine.words[at:at] = ["-c", CLOCK, str(shift)]
    shift.write_text("3600")
    cluster.start(b'0,+item,1,2,"Vase",10,%d,1,1\n' % closes)
    with first_client(machine.port) as client:
        got = client.ask(b"BID 1 0.0 500 *")
    shift.write_text("0")
    machine.process.kill()
    machine.process.wait()
    with first_client(machine.port) as client:
        got += client.ask(b"BID 1 0.0 500 *", b"BID 1 0.0 500 1")
    tester.tally.check(got == [*[b"refused 5 Closed"] * 2, b"bid 0.0"], f"a clock that is behind at a takeover: {got}")
    tester.tally.check(cluster.close() == [[0]], "the status of the next leader")


def main() -> None:
    words = parser_of(__doc__)
    words.add_argument("program", nargs="?", type=executable, default=str(BUILT))
    words.add_argument("--check", type=executable, default=str(built("rubis_check")), help="the referee")
    asked = words.parse_args()
    tally = Tally()
    if not (shutil.which("etcd") and shutil.which("etcdctl")):
        tally.skip("several machines", "etcd is not installed")
        tally.finish()
    with servers_folder() as folder:
        tester = FrontTester(asked, Path(folder), tally)
        try:
            tally.tell(own_log, tester)
            tally.tell(clocks, tester)
            tally.tell(failures, tester)
        finally:
            for cluster in Cluster.made:
                cluster.is_over.set()
            tester.close()
    tally.finish()


if __name__ == "__main__":
    main()
