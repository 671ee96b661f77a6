"""Other clients of examples/front.py: those of Redis, examples/load.py, and the commands that docs/SERVING.md shows."""

import re
import shlex
import shutil
import sys

from lib.fronts import Front, FrontTester
from lib.program import DOCUMENTS, EXAMPLES, LIB, run
from lib.watched import judged_by_itself, mix

LOAD = [sys.executable, "-B", EXAMPLES / "load.py"]
TOLD = re.compile(
    rb"(\d+) replies, 0 errors, (\d+) a second; "
    rb"milliseconds: p50 ([\d.]+), p99 ([\d.]+), p99.9 ([\d.]+), most ([\d.]+)\n"
)


def other_clients(tester: FrontTester) -> None:
    """redis-cli, redis-benchmark, nc and examples/load.py"""
    front = Front(tester, "others", rows=b'0,+item,1,2,"Vase",10,100,1,1\n')
    port = str(front.port)
    said = (
        (["redis-cli", "-p", port, "BID", "3", "0.0", "500", "5"], b"", b"bid "),
        (["redis-cli", "-p", port, "ITEM", "1", "2", 'Old, "red" vase', "10", "100", "1"], b"", b"item "),
        (["redis-cli", "-p", port, "BID", "3"], b"", b"ERR wrong number of fields"),
        (["redis-cli", "-p", port], b"PING\nVIEWUSER 0\n", b"PONG\nuser rating=0 comments=0"),
        (["redis-cli", "-p", port], b"MULTI\nBID 3 0.0 500 5\nEXEC\n", b"OK\nERR no transactions"),
        (["redis-cli", "-3", "-p", port, "-n", "0", "PING"], b"", b"PONG\n"),
        (f"redis-benchmark -p {port} -c 20 -n 2000 -P 4 --csv BID 1 0.0 500 5".split(), b"", b'"BID 1 0.0 500 5"'),
        (["nc", "-N", "127.0.0.1", port], b"VIEWUSER 0\r\nPING\r\n", b"$24\r\nuser rating=0 comments=0\r\n+PONG\r\n"),
        ([*LOAD, *f"--port {port} --clients 10 --pipeline 2 --seconds 0.3".split()], b"", b" replies, 0 errors, "),
    )
    for words, given, wanted in said:
        if shutil.which(words[0]) is None:
            tester.tally.skip(f"{words[0]} as a client", f"{words[0]} is not installed")
            continue
        got = run(words, given)
        tester.tally.check(wanted in got.stdout, f"{words}: {got}")
    tester.tally.check(front.info()["starts"] == 1 and front.close() == 0, "the front after other clients")
    judged_by_itself(tester, front)


def loads(tester: FrontTester) -> None:
    """examples/load.py: a file of requests, as many replies as the front counts, times in order; and no front"""
    front, file = Front(tester, "loads", rows=mix()[0]), tester.folder / "load.csv"
    file.write_text(mix()[0].decode() + "".join(mix()[1]))
    got = run([*LOAD, "--port", str(front.port), "--clients", "20", "--seconds", "0.5", file])
    told = TOLD.fullmatch(got.stdout)
    replies, rate, *times = map(float, told.groups() if told else (0, 1))
    tester.tally.check(
        replies == front.info()["requests"] > 0 and times == sorted(times) and replies / rate >= 0.49, f"a load: {got}"
    )
    front.close()
    judged_by_itself(tester, front)
    got = run([*LOAD, "--port", str(front.port)])
    tester.tally.check(got.status == 1 and got.stderr.startswith(b"load.py: "), f"a load of no front: {got}")


def shown(tester: FrontTester) -> None:
    """the commands that docs/SERVING.md shows, of redis-cli, whoever connected before, and of the referee"""
    page, front = (DOCUMENTS / "SERVING.md").read_text(), Front(tester, "shown")
    if shutil.which("redis-cli"):
        lines = re.findall(r"(?m)^    (.*redis-cli -p 7379 .*)$", page)
        got = [run(["sh", "-c", "\n".join(lines).replace("7379", str(front.port))]).stdout for _ in range(3)]
        tester.tally.check(got == [b"bid 1.0\n", b"bid 3.0\n", b"bid 1.1\n"], f"{lines}: {got}")
    else:
        tester.tally.skip("the commands of redis-cli that a page shows", "redis-cli is not installed")
    front.close()
    (words,) = re.findall(r"(?m)^    rubis_check (.*)$", page)
    got = run(["sh", "-c", f"{shlex.quote(str(tester.referee))} {words}"], cwd=front.audit)
    tester.tally.check(got.stdout == b"the history replays\n", f"{words}: {got}")


# Of a client in each language: how it is run, what shows that it is installed, and Debian's package.
NODE = ("env", "NODE_PATH=/usr/share/nodejs", "node")
LANGUAGES = (
    ("client.py", ("/usr/bin/python3",), ("-c", "import redis"), "python3-redis"),
    ("client_async.py", ("/usr/bin/python3",), ("-c", "import redis.asyncio"), "python3-redis"),
    ("client.php", ("php",), ("-r", "exit(class_exists('Redis') ? 0 : 1);"), "php-redis"),
    ("client.rb", ("ruby",), ("-e", "require 'redis'"), "ruby-redis"),
    ("client.pl", ("perl",), ("-MRedis", "-e", "1"), "libredis-perl"),
    ("client.js", NODE, ("-e", "require('redis')"), "node-redis"),
)
# A bid that is refused, a pipeline, a transaction, and how many bids the item has then.
TOLD_OF_LANGUAGE = re.compile(
    rb"refused 4 BelowStart\nbid bid bid\n.*no transactions: each request is one, and none of these is done.*\nbids=3\n"
)


def languages(tester: FrontTester) -> None:
    """clients of Redis in Python, PHP, Ruby, Perl and JavaScript: each is told a refusal, the replies to a pipeline,
    and that a transaction is none, of which nothing is done"""
    front = Front(tester, "languages")
    for name, words, installed, package in LANGUAGES:
        if shutil.which(words[-1]) is None or run([*words, *installed]).status != 0:
            tester.tally.skip(f"{name}, a client", f"{package} is not installed")
            continue
        got = run([*words, LIB / "clients" / name, str(front.port)])
        tester.tally.check(
            got.status == 0 and TOLD_OF_LANGUAGE.fullmatch(got.stdout) is not None, f"{package}: {got}"
        )
    tester.tally.check(front.info()["starts"] == 1 and front.close() == 0, "the front after clients of all languages")
    judged_by_itself(tester, front)
