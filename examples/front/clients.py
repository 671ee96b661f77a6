"""A connection, and what it may ask for."""

import asyncio
import hmac
import time
from collections import deque

from front.log import Clock
from front.program import MOST_UNDER_WAY, Engine, Request, say_seldom
from front.resp import MOST_BYTES, OK, PONG, error, reply_of, shown, split, text

MOST_CLIENTS = 512
MOST_UNSENT = 4096  # bytes of replies that a client does not take, before it is read no further
BUFFER = memoryview(bytearray(16384))  # for all clients, since what is read is taken out at once

# Of each kind of request the place of its time, or 0 if it has none.
TIMES = {
    b"item": 6,
    b"bid": 4,
    b"buynow": 4,
    b"comment": 0,
    b"viewitem": 0,
    b"viewbids": 0,
    b"viewcategory": 0,
    b"viewuser": 0,
}
OTHERS = b"auth client command discard echo exec hello info multi ping places quit select unwatch watch".split()
# Those of a client that has given no password yet, and those within a MULTI.
FIRST = (b"", b"auth", b"hello", b"quit")
OF_MULTI = (b"", b"discard", b"exec", b"multi", b"quit")

PROTOCOL, FULL = error(b"ERR Protocol error"), error(b"ERR max number of clients reached")
TOO_LONG = error(b"ERR longer than %d bytes" % MOST_BYTES)
NO_PASSWORD = error(b"NOAUTH Authentication required.")
WRONG_PASSWORD = error(b"WRONGPASS invalid username-password pair or user is disabled.")
NEEDS_NO_PASSWORD = error(
    b"ERR AUTH <password> called without any password configured for the default user. "
    b"Are you sure your configuration is correct?"
)
NO_VERSION = error(b"NOPROTO unsupported protocol version")
NO_DATABASE = error(b"ERR DB index is out of range")
NO_TRANSACTIONS = error(b"ERR no transactions: each request is one, and none of these is done")
DISCARDED = error(b"EXECABORT Transaction discarded because of previous errors.")


def record_of(words: list[bytes], place: int, clock: Clock) -> bytes:
    """A request, with its time at this place, as one record without its worker. The program checks its words."""
    if words[place:][:1] == [b"*"]:
        words[place] = b"%d" % clock.now()
    record = b",".join(words)
    if len(record) > MOST_BYTES:
        raise ValueError("too long")
    if b'"' in record or record.count(b",") >= len(words):
        record = b",".join(b'"%s"' % word.replace(b'"', b'""') for word in words)
    return record


class Client(asyncio.BufferedProtocol):
    """A connection, which is a session of one worker. Its replies have the order of its commands."""

    most = MOST_CLIENTS

    def __init__(self, engine: Engine) -> None:
        self.engine, self.number, self.requests, self.rest = engine, next(engine.sessions), deque(), b""
        self.worker = self.number % engine.asked.workers
        self.is_over, self.has_places = False, False
        self.refused: int | None = None  # commands since MULTI
        self.password, self.heard_at = engine.asked.password, time.monotonic()
        self.is_known = not self.password

    def connection_made(self, transport: asyncio.Transport) -> None:
        self.transport = transport
        transport.set_write_buffer_limits(MOST_UNSENT)
        count = len(self.engine.clients)
        self.engine.add(self)
        if count >= self.most:
            say_seldom(f"{self.most} clients: no more are taken until some leave")
        if count >= self.most or self.engine.under_way() >= MOST_UNDER_WAY:
            transport.write(FULL)
            transport.close()

    def connection_lost(self, _: Exception | None) -> None:
        self.engine.remove(self)

    def get_buffer(self, _: int) -> memoryview:
        return BUFFER[: 32 * self.engine.share]

    def buffer_updated(self, size: int) -> None:
        self.heard_at = time.monotonic()
        commands, self.rest = split(self.rest + BUFFER[:size])
        for words in commands:
            if words and not self.is_over:
                self.take(words)
        self.tell()

    def take(self, words: list[bytes]) -> None:
        name, words[0] = words[0], words[0].lower()
        kind = words[0]
        if not self.is_known and kind not in FIRST:
            reply = NO_PASSWORD
        elif self.refused is not None and kind not in OF_MULTI:
            self.refused, reply = self.refused + 1, NO_TRANSACTIONS
        elif kind in TIMES:
            return self.request(words)
        else:
            reply = self.answer(name, words)
        return self.requests.append(Request(self, reply=reply))

    def request(self, words: list[bytes]) -> None:
        try:
            request = Request(self, record_of(words, TIMES[words[0]], self.engine.clock))
        except OSError as fault:
            told = f"ERR not done: no time can be given: {fault.strerror or fault}"
            return self.requests.append(Request(self, reply=error(told.encode())))
        except ValueError:
            return self.requests.append(Request(self, reply=TOO_LONG))
        self.requests.append(request)
        return self.engine.ask(request)

    def answer(self, name: bytes, words: list[bytes]) -> bytes:
        """The reply to what is no request."""
        match words:
            case [b"", *_]:
                self.is_over = True
                return PROTOCOL
            case [b"quit", *_]:
                self.is_over = True
                return OK
            case [b"ping"]:
                return PONG
            case [b"ping" | b"echo", word]:
                return text(word)
            case [b"places", *_]:
                self.has_places = True
                return OK
            case [b"info", *_]:
                return self.engine.info()
            case [b"multi" | b"exec" | b"discard" | b"watch" | b"unwatch" as kind, *_]:
                return self.transaction(kind)
            case [b"select" | b"auth" | b"hello" | b"client" | b"command", *_]:
                return self.connecting(words)
            case [kind, *_] if kind in OTHERS:
                return wrong_count(kind)
        return error(b"ERR unknown command '%s'" % shown(name))

    def transaction(self, kind: bytes) -> bytes:
        """Commands between MULTI and EXEC come before anyone can tell their client that they are none of a transaction:
        so none is done."""
        refused, self.refused = self.refused, None
        match kind:
            case b"multi":
                self.refused = refused or 0
                return OK if refused is None else error(b"ERR MULTI calls can not be nested")
            case b"exec" | b"discard" if refused is None:
                return error(b"ERR %s without MULTI" % kind.upper())
            case b"exec":
                return DISCARDED if refused else reply_of([])
            case b"watch":
                return NO_TRANSACTIONS
        return OK

    def connecting(self, words: list[bytes]) -> bytes:
        """What clients send first."""
        match words:
            case [b"select", number]:
                return OK if number == b"0" else NO_DATABASE
            case [b"auth", password] | [b"auth", b"default", password]:
                return self.authenticate(password) or OK
            case [b"auth", _, _]:
                return WRONG_PASSWORD if self.password else NEEDS_NO_PASSWORD
            case [b"hello", *options]:
                return self.hello(options)
            case [b"client", name, *options]:
                return self.of_client(name, options)
            case [b"command"]:
                return reply_of([[kind, -1, [], 0, 0, 0] for kind in (*TIMES, *OTHERS)])
            case [b"command", name] if name.lower() == b"count":
                return reply_of(len(TIMES) + len(OTHERS))
            case [b"command", *_]:
                return reply_of([])
        return wrong_count(words[0])

    def authenticate(self, password: bytes) -> bytes:
        """What is wrong with a password, if something is."""
        if not self.password:
            return NEEDS_NO_PASSWORD
        is_right = hmac.compare_digest(password, self.password)
        self.is_known |= is_right
        return b"" if is_right else WRONG_PASSWORD

    def hello(self, options: list[bytes]) -> bytes:
        match [*options[:1], *(word.lower() for word in options[1:2]), *options[2:]]:
            case [version, *_] if version != b"2":
                return NO_VERSION
            case [_, b"auth", b"default", password, *_]:
                if wrong := self.authenticate(password):
                    return wrong
            case [_, b"auth", *_]:
                return WRONG_PASSWORD
        if not self.is_known:
            return NO_PASSWORD
        return reply_of([b"server", b"fundreivo", b"version", b"0", b"proto", 2, b"mode", b"standalone"])

    def of_client(self, name: bytes, options: list[bytes]) -> bytes:
        match [name.lower(), *options]:
            case [b"setname", _] | [b"setinfo", _, _]:
                return OK
            case [b"id"]:
                return reply_of(self.number + 1)
        return error(b"ERR unknown subcommand '%s'" % shown(name))

    def tell(self) -> None:
        """Sends the replies that are due, and reads on if there is room for more."""
        due, requests = [], self.requests
        while requests and requests[0].is_released:
            due.append(requests.popleft().reply)
        if due and not self.transport.is_closing():
            self.transport.write(b"".join(due))
        if self.is_over and not requests:
            return self.transport.close()
        is_busy = (
            self.is_over or len(requests) >= self.engine.share or self.transport.get_write_buffer_size() > MOST_UNSENT
        )
        return (self.transport.pause_reading if is_busy else self.transport.resume_reading)()

    resume_writing = tell

    def end_idle(self, since: float) -> None:
        """Ends a connection on which nothing came since then. Replies that are not taken are lost."""
        if self.heard_at < since and not self.requests:
            (self.transport.abort if self.transport.get_write_buffer_size() else self.transport.close)()

    def eof_received(self) -> bool:
        self.is_over = True
        self.tell()
        return True


def wrong_count(kind: bytes) -> bytes:
    return error(b"ERR wrong number of arguments for '%s' command" % kind)
