"""What examples/front.py bounds: the length of a command, connections, and requests under way."""

import threading
from collections import Counter

from lib.fronts import FULL, MEGABYTES, PROTOCOL, SEEN, Client, Front, FrontTester, packed
from lib.sessions import SECONDS, wait_until

MOST_CLIENTS, MOST_UNDER_WAY, MOST_OF_A_CLIENT, MOST_BYTES = 512, 16384, 1000, 512
# A request so long that few more than a client may have under way are read at once.
LONG_VIEW = b"VIEWUSER" + b" " * 300 + b"0\n"
# In so many turns the front reads several times what a client may have under way.
TURNS = 200


def bounds(tester: FrontTester) -> None:
    """the length of a command, connections, and requests under way, of one client, of many and of all"""
    front = Front(tester, "bounds")
    for command in (
        b"A" * (MOST_BYTES + 1),
        packed(b"PING", b"A" * (MOST_BYTES + 1)) + b"\n",
        b"*2\r\n$3\r\nBID\r\n$9\r\n1\r\n",
        b"*x\r\n",
        packed(b"VIEWUSER", b"0\n1") + b"\n",
        b"*2\r\n$8\r\nVIEWUSER\r\n$1\r\n01\n",
        b"*99\r\n" + b"$1\r\nA\r\n" * 98 + b"$1\r\n",
    ):
        with front.client() as client:
            client.send(b"PING\n" + command)
            got = [client.reply(), client.reply(), client.reply()]
            tester.tally.check(got == [b"+PONG", PROTOCOL, b""], f"{command[:20]!r}: {got}")
    with front.client() as client:
        quotes = packed(b"ITEM", b"1", b"2", b'"' * 400, b"10", b"100", b"1")
        long = (b"VIEWUSER " + b"1" * MOST_BYTES, packed(b"ITEM", *[b"A" * 100] * 6))
        got = client.ask(b"VIEWUSER " + b"1" * 500, quotes, *long, b"PING")
        tester.tally.check(
            got == [b"-ERR not a number", b"-ERR not a name", *[b"-ERR longer than 512 bytes"] * 2, b"+PONG"],
            f"long requests: {got}",
        )
    clients = [front.client() for _ in range(MOST_CLIENTS)]
    tester.tally.check(all(client.ask(b"PING") == [b"+PONG"] for client in clients), f"{MOST_CLIENTS} connections")
    with front.client() as client:
        tester.tally.check(client.reply() == FULL and client.reply() == b"", "one connection more")
    for client in clients[100:]:
        client.__exit__()
    wait_until(lambda: front.info()["connected_clients"] == 101)
    # Each has an equal part of a quarter, and so has the client that asks how many there are.
    under_way(tester, front, clients[:100], MOST_UNDER_WAY // 4 // 101)
    for left in (3, 1):
        for client in clients[left:100]:
            client.__exit__()
        wait_until(lambda: front.info()["connected_clients"] == left + 1)
        under_way(tester, front, clients[:1], MOST_OF_A_CLIENT)
    clients[0].__exit__()
    wait_until(lambda: front.info()["connected_clients"] == 1)
    crowd(tester, front)
    tester.tally.check(front.info()["starts"] == 1 and front.close() == 0, "the front after all")


def under_way(tester: FrontTester, front: Front, clients: list[Client], share: int) -> None:
    """Clients that each send more than may be under way, while nothing is answered."""
    least, most = share * len(clients), (share + 32 * share // len(LONG_VIEW) + 1) * len(clients)
    # More than may be under way; what is over fits into the client's socket, so that its sender ends.
    each = share * 5 // 4 + 2
    with front.held(), front.client() as client:
        senders = [threading.Thread(target=one.send, args=(LONG_VIEW * each,), daemon=True) for one in clients]
        for sender in senders:
            sender.start()
        for sender in senders:
            sender.join(SECONDS)
        wait_until(lambda: client.info()["under_way"] >= least)
        # In the turn in which the front reads a PING it reads all that it may of the others.
        pongs = Counter(reply for _ in range(TURNS) for reply in client.ask(b"PING"))
        count = client.info()["under_way"]
        tester.tally.check(
            pongs == {b"+PONG": TURNS} and least <= count <= most,
            f"{count} requests under way, of {len(clients)} clients, not {least} to {most}",
        )
    got = Counter(client.reply() for client in clients for _ in range(each))
    tester.tally.check(got == {SEEN: each * len(clients)}, f"replies to {len(clients)} clients: {got}")


def crowd(tester: FrontTester, front: Front) -> None:
    """Clients that come one after the other, each with more than it may have under way, while nothing is
    answered: at last none is taken."""
    clients, each = [], 2 * MOST_OF_A_CLIENT
    with front.held(), front.client() as client:
        while (count := client.info()["under_way"]) < MOST_UNDER_WAY and len(clients) < MOST_CLIENTS - 1:
            clients.append(front.client())
            threading.Thread(target=clients[-1].send, args=(b"VIEWUSER 0\n" * each,), daemon=True).start()
            wait_until(lambda: client.info()["under_way"] > count)
        with front.client() as other:
            got = other.reply(), other.reply()
        tester.tally.check(
            got == (FULL, b"") and count < MOST_UNDER_WAY + each,
            f"one client more than {len(clients)} with {count} requests: {got}",
        )
    got = Counter(client.reply() for client in clients for _ in range(each))
    tester.tally.check(
        got == {SEEN: each * len(clients)} and front.most_megabytes() < MEGABYTES,
        f"replies to {len(clients)} clients: {got}",
    )
    for client in clients:
        client.__exit__()
