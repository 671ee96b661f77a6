"""What examples/front.py answers to commands that are no requests, and what it makes of its options."""

import os
import resource
import socket
import subprocess
import time
from pathlib import Path
from typing import Any, Callable

from lib.fronts import FRONT, FULL, PROTOCOL, SEEN, Client, Front, FrontTester, packed
from lib.program import run
from lib.sessions import SECONDS, wait_until
from lib.watched import judged_by_itself

ROW = b'0,+item,1,2,"Vase",10,100,1,1\n'
BID, VIEW = b"BID 3 0.0 500 5", b"VIEWITEM 0.0"
NONE = b"-ERR no transactions: each request is one, and none of these is done"
DISCARDED, OUTSIDE = b"-EXECABORT Transaction discarded because of previous errors.", b"-ERR EXEC without MULTI"

# Commands that clients of Redis send when they connect, and their replies.
CONNECTING = (
    (b"PING", b"+PONG"),
    (b"PING here", b"here"),
    (packed(b"ECHO", b"a b"), b"a b"),
    (b"ECHO", b"-ERR wrong number of arguments for 'echo' command"),
    (b"SELECT 0", b"+OK"),
    (b"SELECT 1", b"-ERR DB index is out of range"),
    (b"SELECT", b"-ERR wrong number of arguments for 'select' command"),
    (b"CLIENT SETNAME me", b"+OK"),
    (b"CLIENT SETINFO LIB-NAME redis-py", b"+OK"),
    (b"CLIENT ID", b":1"),
    (b"CLIENT KILL x", b"-ERR unknown subcommand 'KILL'"),
    (b"COMMAND DOCS", b"*0"),
    (b"COMMAND COUNT", b":23"),
    (b"HELLO 3", b"-NOPROTO unsupported protocol version"),
    (b"HELLO 3 AUTH default x", b"-NOPROTO unsupported protocol version"),
    (b"AUTH x", b"-ERR AUTH <password> called without any password configured for the default user. Are you sure your"
     b" configuration is correct?"),
    (b"CONFIG GET save", b"-ERR unknown command 'CONFIG'"),
    (b"EXEC", OUTSIDE),
    (b"DISCARD", b"-ERR DISCARD without MULTI"),
    (b"WATCH x", NONE),
    (b"UNWATCH", b"+OK"),
)


def connecting(tester: FrontTester) -> None:
    """what clients of Redis send when they connect, and what is no command"""
    front = Front(tester, "connecting")
    with front.client() as client:
        for command, reply in CONNECTING:
            got = client.ask(command)
            tester.tally.check(got == [reply], f"{command!r}: {got}, not {reply!r}")
        client.send(b"HELLO 2\n")
        got = [client.reply() for _ in range(9)]
        tester.tally.check(
            got == [b"*8", b"server", b"fundreivo", b"version", b"0", b"proto", b":2", b"mode", b"standalone"],
            f"HELLO: {got}",
        )
        client.send(b"COMMAND\n")
        names = [[client.reply() for _ in range(7)][1] for _ in range(int(client.reply()[1:]))]
        tester.tally.check(len(names) == 23 and b"bid" in names and b"multi" in names, f"COMMAND: {names}")
        tester.tally.check(client.ask(b"VIEWUSER 0") == [SEEN], "the connection goes on")
    front.close()


def transactions(tester: FrontTester) -> None:
    """MULTI: nothing that comes before its EXEC or DISCARD is done, also where all comes at once"""
    front = Front(tester, "transactions", rows=ROW)
    for ending, told in ((b"EXEC", DISCARDED), (b"DISCARD", b"+OK")):
        with front.client() as client:
            got = client.ask(b"MULTI", BID, b"PING", b"MULTI", BID, ending, VIEW)
            tester.tally.check(
                got[:3] == [b"+OK", NONE, NONE]
                and got[3:6] == [b"-ERR MULTI calls can not be nested", NONE, told]
                and b" bids=0 " in got[6],
                f"MULTI and {ending.decode()}: {got}",
            )
    with front.client() as client:
        got = client.ask(b"MULTI", b"EXEC", b"MULTI", BID, b"MULTI", b"EXEC", b"EXEC")
        tester.tally.check(got[1] == b"*0" and got[5:] == [DISCARDED, OUTSIDE], f"empty and nested: {got}")
        client.ask(b"MULTI", BID)
    with front.client() as client:
        got = client.ask(VIEW, BID.replace(b"500", b"5"), BID, VIEW)
        tester.tally.check(
            b" bids=0 " in got[0] and got[1:3] == [b"refused 4 BelowStart", b"bid 3.0"] and b" bids=1 " in got[3],
            f"after a MULTI that hung up: {got}",
        )
    front.close()
    judged_by_itself(tester, front)


HTTP = b"POST / HTTP/1.1\r\nHost: localhost\r\nContent-Type: text/plain\r\n\r\n"


def http(tester: FrontTester) -> None:
    """an HTTP request, as any web page may have a browser send, also one that is encrypted, in which the page's server
    chooses some bytes: its connection ends before a bid of it is done"""
    front = Front(tester, "http", rows=ROW)
    for head in (
        HTTP,
        HTTP.replace(b"POST", b"BID"),
        HTTP.partition(b"\n")[2],
        b"GET /?BID HTTP/1.0\n\n",
        b"\x16\x03\1 a ticket\n",
    ):
        with front.client() as client:
            client.send(head + BID + b"\r\nQUIT\r\n")
            got = client.reply(), client.reply()
        tester.tally.check(got == (PROTOCOL, b""), f"{head[:20]!r}: {got}")
    with front.client() as client:
        got = client.ask(VIEW)
    tester.tally.check(b" bids=0 " in got[0], f"bids in bodies: {got}")
    front.close()


def passwords(tester: FrontTester) -> None:
    """--password: nothing is done or told before AUTH or HELLO gives it, from a word and from a file"""
    file = tester.folder / "password"
    file.write_bytes(b"pass word\nmore\n")
    for number, (told, password) in enumerate((("secret", b"secret"), (f"@{file}", b"pass word"))):
        front = Front(tester, f"passwords{number}", "--password", told, rows=ROW)
        auth, needed = packed(b"AUTH", password), b"-NOAUTH Authentication required."
        wrong = b"-WRONGPASS invalid username-password pair or user is disabled."
        with front.client() as client:
            got = client.ask(BID, b"INFO", b"MULTI", b"HELLO 2", b"AUTH x", packed(b"AUTH", b"other", password), BID)
            tester.tally.check(got == [*[needed] * 4, wrong, wrong, needed], f"before a password: {got}")
            got = client.ask(auth, VIEW)
            tester.tally.check(got[0] == b"+OK" and b" bids=0 " in got[1], f"after it: {got}")
        with front.client() as client:
            got = client.ask(packed(b"HELLO", b"2", b"AUTH", b"default", b"wrong"), BID)
            got += client.ask(packed(b"HELLO", b"2", b"AUTH", b"default", password))
            tester.tally.check(got == [wrong, needed, b"*8"], f"HELLO: {got}")
        front.close()
    for told in ("", f"@{tester.folder / 'none'}"):
        refused(tester, ["--password", told, tester.program], 2, "--password")


def refused(tester: FrontTester, words: list[Any], status: int, told: str, **how: Any) -> None:
    """A front that ends before it serves, and says so in a line."""
    got = run([*FRONT, "--port", "0", *words], **how)
    tester.tally.check(
        got.status == status and got.stderr.count(b"\n") == 1 and told.encode() in got.stderr, f"{words}: {got}"
    )


def idle(tester: FrontTester) -> None:
    """--idle: a client of which nothing comes is ended, also one that reads nothing, and one that asks is not"""
    front = Front(tester, "idle", "--idle", "4", rows=ROW)
    with front.client() as client, front.client() as other, front.client(receive=4096) as deaf:
        deaf.send(b"VIEWITEM 0.0\n" * 20_000)
        began = time.monotonic()
        while time.monotonic() < began + 6:
            tester.tally.check(client.ask(b"PING") == [b"+PONG"], "a client that asks is not ended")
            time.sleep(0.2)
        tester.tally.check(other.reply() == b"", "a client that is idle is ended")
        wait_until(lambda: "connected_clients:1\r" in client.ask(b"INFO")[0].decode())
        tester.tally.check(b"connected_clients:1\r" in client.ask(b"INFO")[0], "one that does not read is ended")
    front.close()


def addresses(tester: FrontTester) -> None:
    """--host: no address is refused, one that others reach has a warning, and this machine's own has none"""
    refused(tester, ["--host", "", tester.program], 2, "--host")
    for number, (words, told) in enumerate(
        (
            (("--host", "0.0.0.0"), "anyone who can connect can send any command"),
            (("--host", "0.0.0.0", "--password", "x"), "the password and all else go over the network"),
            (("--host", "localhost"), ""),
        )
    ):
        front = Front(tester, f"address{number}", *words, waits=False)
        wait_until(lambda: "serves at" in front.said.read_text() and told in front.said.read_text())
        said = front.said.read_text()
        tester.tally.check(
            told in said and said.count("\n") == said.count("serves at") + bool(told), f"{words}: {said}"
        )
        front.close()


def options(tester: FrontTester) -> None:
    """options behind PROGRAM: --log and --workers are read, and those that no front can have are refused"""
    log = tester.folder / "behind"
    front = Front(tester, "options")
    front.words = [str(tester.program), "--fast", f"--log={log}", "--workers", "2"]
    front.close()
    front.start()
    wait_until(front.serves_again)
    with front.client() as client, front.client() as other, front.client() as third:
        got = client.ask(b"ITEM 1 2 Vase 10 100 1")
        front.kill_engine()
        wait_until(lambda: front.info()["starts"] == 2)
        got += other.ask(BID) + third.ask(BID)
    tester.tally.check(got == [b"item 0.0", b"bid 1.0", b"bid 0.0"], f"--log and --workers behind PROGRAM: {got}")
    tester.tally.check(front.close() == 0 and log.read_bytes().count(b"\n") == 3, "the log that stood behind PROGRAM")
    for word in ("--rows", "--faults=end", "--report", "--live=1", "--history"):
        refused(tester, [tester.program, "--fast", word], 2, word)
    refused(tester, ["--workers", "0", tester.program], 2, "--workers")
    refused(tester, [tester.folder / "none"], 2, "no such program")


def limit_files(most: int) -> Callable[[], None]:
    return lambda: resource.setrlimit(resource.RLIMIT_NOFILE, (most, most))


def few_files(tester: FrontTester) -> None:
    """a low limit on open files: so many clients fewer, which is said, or none, and no traceback"""
    front = Front(tester, "few_files", preexec_fn=limit_files(40))
    clients = [front.client() for _ in range(60)]
    got = []
    for client in clients:
        with client:
            got += client.ask(b"PING")[:1]
    said = front.said.read_text()
    tester.tally.check(
        got.count(b"+PONG") >= 8 and set(got) <= {b"+PONG", FULL, b""} and "takes 8 clients" in said,
        f"40 open files: {got}, {said[:500]}",
    )
    tester.tally.check("Traceback" not in said and len(said) < 3000, f"what is said of 60 clients: {said[:3000]}")
    front.close()
    refused(tester, [tester.program], 1, "ulimit -n", preexec_fn=limit_files(30))


def sockets(tester: FrontTester) -> None:
    """--unix: the socket of another front and another file are kept, a socket that is left over is not, and none is
    left"""
    place, other = tester.folder / "place", tester.folder / "other"
    for path in (place, other):
        path.unlink(missing_ok=True)
    with socket.socket(socket.AF_UNIX) as left:
        left.bind(str(place))
    process = subprocess.Popen([*FRONT, "--unix", place, tester.program], stderr=subprocess.DEVNULL)
    Front.started.append(process)
    wait_until(lambda: serves(place))
    refused(tester, ["--unix", place, tester.program], 1, "another front serves there")
    tester.tally.check(serves(place), "the first front serves on")
    process.terminate()
    tester.tally.check(process.wait(SECONDS) == 0 and not place.exists(), "a socket that is left")
    other.write_bytes(b"text")
    refused(tester, ["--unix", other, tester.program], 1, "in use")
    tester.tally.check(other.read_bytes() == b"text", "another file in the place of a socket")


def serves(place: Path) -> bool:
    try:
        with Client(place) as client:
            return client.ask(b"PING") == [b"+PONG"]
    except OSError:
        return False


def foreign_places(tester: FrontTester) -> None:
    """an audit in a folder with other files, and a log that is a pipe: a line each"""
    folder, pipe = tester.folder / "foreign_audit", tester.folder / "pipe"
    folder.mkdir()
    (folder / "notes.csv").write_text("mine\n")
    refused(tester, ["--audit", folder, tester.program], 1, "notes.csv")
    tester.tally.check([path.name for path in folder.iterdir()] == ["notes.csv"], "the folder is as it was")
    os.mkfifo(pipe)
    refused(tester, ["--log", pipe, "--audit", tester.folder / "new", tester.program], 1, "no regular file")


WORD_CHECKS: tuple[Callable[[FrontTester], None], ...] = (
    connecting,
    transactions,
    http,
    passwords,
    idle,
    addresses,
    options,
    few_files,
    sockets,
    foreign_places,
)
