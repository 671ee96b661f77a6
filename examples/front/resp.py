"""The protocol of Redis, RESP2: commands as they come, and replies as they are sent."""

MOST_BYTES = 512  # of a command
COUNTS = {b"*%d\r" % count: count for count in range(1, 100)}
SIZES = {size: b"$%d\r" % size for size in range(MOST_BYTES)}
# Of an HTTP request the last word of the first line, and the word before the name of its server; and the first byte of
# one that is encrypted.
HTTP, HOST, TLS = b"HTTP/", b"host:", b"\x16"

# What a reply can have.
Value = int | bytes | list["Value"]

OK, PONG = b"+OK\r\n", b"+PONG\r\n"


def split(data: bytes) -> tuple[list[list[bytes]], bytes]:
    """The commands that have come whole, each its words, and the rest. A command is an array of words with their
    lengths, or a line; a malformed one is an empty word, and so is one of HTTP."""
    *lines, rest = data.split(b"\n")
    commands, at = [], 0
    while at < len(lines):
        count = COUNTS.get(lines[at], 0)
        end = at + 1 + 2 * count
        if end > len(lines):
            break
        words = [line.removesuffix(b"\r") for line in lines[at + 2 : end : 2]] if count else words_of_line(lines[at])
        is_right = not count or lines[at + 1 : end : 2] == [SIZES.get(len(word)) for word in words]
        commands.append(words if is_right else [b""])
        at = end
    rest = b"\n".join((*lines[at:], rest))
    return (commands, rest) if len(rest) <= MOST_BYTES else ([*commands, [b""]], b"")


def words_of_line(line: bytes) -> list[bytes]:
    """Browsers send HTTP to any port for any page, with lines of that page's choice in its body."""
    words = line.split()
    is_http = len(words) > 1 and (words[-1].startswith(HTTP) or words[0].lower() == HOST)
    return [b""] if is_http or line[:1] in (b"*", TLS) else words


def text(words: bytes) -> bytes:
    """A bulk string: clients of all languages give its text to their callers, as not all do with a simple string."""
    return b"$%d\r\n%s\r\n" % (len(words), words)


def error(words: bytes) -> bytes:
    return b"-%s\r\n" % words


def reply_of(value: Value) -> bytes:
    if isinstance(value, bytes):
        return text(value)
    return b":%d\r\n" % value if isinstance(value, int) else b"*%d\r\n" % len(value) + b"".join(map(reply_of, value))


def shown(word: bytes) -> bytes:
    """A word of a client, short and without what a terminal would obey."""
    return bytes(byte if 0x20 <= byte < 0x7F else ord("?") for byte in word[:64])
