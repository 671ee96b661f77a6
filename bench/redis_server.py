"""Bids and views in Redis, for bench/run alone: a server of its own on loopback, a sorted set of the highest bids of
each item and its counters, a sorted set of the latest items of each category, and a script in Lua for each request,
which the server performs as one transaction. No load of it has comments or new items."""
import shutil
import socket
import subprocess
import tempfile
import time

from loads import Record

SERVER = "redis-server"

# A member of the sorted set has time and id in order, since of equal scores the members decide.
SCRIPT = """
local kind, item = ARGV[1], 'item:' .. ARGV[2]
if kind == 'viewuser' then
  local score = redis.call('HMGET', 'user:' .. ARGV[2], 'rating', 'comments')
  return 'user rating=' .. (score[1] or 0) .. ' comments=' .. (score[2] or 0)
end
if kind == 'viewcategory' then
  local latest, text = redis.call('ZREVRANGE', 'category:' .. ARGV[2], 0, 9, 'WITHSCORES'), 'latest'
  for at = 1, #latest, 2 do text = text .. ' ' .. latest[at + 1] .. ':' .. latest[at] end
  return text
end
local row = redis.call('HMGET', item, 'seller', 'category', 'start', 'closes', 'bids', 'left', 'name')
if not row[1] then return 'refused 3 NoSuchItem' end
local function padded(digits) return string.rep('0', 20 - #digits) .. digits end
if kind == 'bid' then
  local bidder, amount, time = ARGV[3], ARGV[4], ARGV[5]
  if tonumber(amount) < tonumber(row[3]) then return 'refused 4 BelowStart' end
  if tonumber(time) >= tonumber(row[4]) then return 'refused 5 Closed' end
  local serial = redis.call('INCR', 'bids') - 1
  redis.call('HINCRBY', item, 'bids', 1)
  redis.call('ZADD', 'top:' .. item, amount, padded(time) .. ':' .. padded(tostring(serial)) .. ':' .. bidder)
  redis.call('ZREMRANGEBYRANK', 'top:' .. item, 0, -11)
  return 'bid 0.' .. serial
end
if kind == 'viewbids' then
  local bids, text = redis.call('ZREVRANGE', 'top:' .. item, 0, 9, 'WITHSCORES'), 'bids'
  for at = 1, #bids, 2 do
    local time, serial, bidder = string.match(bids[at], '^0*(%d+):0*(%d+):(%d+)$')
    text = text .. ' ' .. bids[at + 1] .. ':' .. time .. ':' .. bidder .. ':0.' .. serial
  end
  return text
end
local top, highest, bidder = redis.call('ZREVRANGE', 'top:' .. item, 0, 0, 'WITHSCORES'), '-', '-'
if top[1] then highest, bidder = top[2], string.match(top[1], '[^:]*$') end
return 'viewitem seller=' .. row[1] .. ' category=' .. row[2] .. ' start=' .. row[3] .. ' closes=' .. row[4]
  .. ' highest=' .. highest .. ' bidder=' .. bidder .. ' bids=' .. row[5] .. ' left=' .. row[6] .. ' name=' .. row[7]
"""


def is_there() -> bool:
    return shutil.which(SERVER) is not None


def version() -> str:
    said = subprocess.run([SERVER, "--version"], capture_output=True, text=True).stdout
    return next((word[2:] for word in said.split() if word.startswith("v=")), "")


def packed(*words: object) -> bytes:
    """A command as the server reads it."""
    parts = [str(word).encode() for word in words]
    return b"".join([b"*%d\r\n" % len(parts), *(b"$%d\r\n%s\r\n" % (len(part), part) for part in parts)])


class Server:
    """A server that lives as long as a `with` over it. Its log, if it has one, is synced before each reply."""

    def __init__(self, is_logged: bool) -> None:
        self.is_logged = is_logged

    def __enter__(self) -> "Server":
        self.folder = tempfile.mkdtemp(prefix="bench-")
        with socket.socket() as free:
            free.bind(("127.0.0.1", 0))
            port = free.getsockname()[1]
        log = ["--appendonly", "yes", "--appendfsync", "always"] if self.is_logged else ["--appendonly", "no"]
        words = [SERVER, "--bind", "127.0.0.1", "--port", str(port), "--save", "", "--dir", self.folder, *log]
        self.process = subprocess.Popen(words, stdout=subprocess.DEVNULL, stderr=subprocess.DEVNULL)
        self.socket = self.connected(port)
        self.socket.setsockopt(socket.IPPROTO_TCP, socket.TCP_NODELAY, 1)
        self.replies = self.socket.makefile("rb")
        self.script = self.ask("SCRIPT", "LOAD", SCRIPT)
        return self

    def connected(self, port: int) -> socket.socket:
        for _ in range(200):
            try:
                return socket.create_connection(("127.0.0.1", port))
            except OSError:
                time.sleep(0.05)
        raise SystemExit(f"{SERVER} does not answer")

    def __exit__(self, *_: object) -> None:
        self.replies.close()
        self.socket.close()
        self.process.terminate()
        self.process.wait()
        shutil.rmtree(self.folder, ignore_errors=True)

    def ask(self, *words: object) -> str:
        return self.ask_packed(packed(*words))

    def ask_packed(self, command: bytes) -> str:
        self.socket.sendall(command)
        return self.reply()

    def reply(self) -> str:
        line = self.replies.readline()
        if line[:1] == b"$":
            return self.replies.read(int(line[1:]) + 2)[:-2].decode()
        if line[:1] not in (b"+", b":"):
            raise SystemExit(f"{SERVER}: {line!r}")
        return line[1:-2].decode()

    def pass_by(self, count: int) -> None:
        """Reads so many replies of two lines each, and none of their words."""
        ends = 0
        while ends < 2 * count:
            ends += self.socket.recv(1 << 16).count(b"\n")

    def open(self, rows: list[Record]) -> None:
        """A new auction with these items."""
        self.ask("FLUSHALL")
        for serial, row in enumerate(rows):
            fields = ("seller", row.who, "category", row.other, "start", row.start, "closes", row.closes)
            self.ask("HSET", f"item:0.{serial}", *fields, "bids", 0, "left", row.number, "name", row.name)
            self.ask("ZADD", f"category:{row.other}", row.time, f"0.{serial}")

    def command(self, record: Record) -> bytes:
        if record.kind in ("viewuser", "viewcategory"):
            return packed("EVALSHA", self.script, 0, record.kind, record.who)
        item = f"{record.item_worker}.{record.item_serial}"
        fields = (record.who, record.amount, record.time) if record.kind == "bid" else ()
        return packed("EVALSHA", self.script, 0, record.kind, item, *fields)
