#!/usr/bin/env python3
"""Shows what the built program makes of odd bytes, of numbers at every limit, of 16 workers on one item, and of as many
records as there may be and one more, as docs/FORMATS.md says.

    tests/limits.py [PROGRAM]

A run that leaves something running, or takes longer than ten minutes, has failed. Needs 4 GB of
memory and 1 GB for temporary files.
"""

import re
import shutil
from dataclasses import fields, replace
from itertools import product

from lib import helps
from lib.checks import FEW, MILLION, SEEN, VASE, VIEW, AuctionTester, main
from lib.model import Options, Outcome, expected
from lib.program import EXAMPLES, described, fault, run
from lib.records import BYTE_ORDER_MARK


# Texts.


def examples(tester: AuctionTester) -> None:
    """the examples of the documents"""
    both = Options(workers=2, joined=2, split=3, threshold=1, users=10, categories=2, history=True)
    contended = (EXAMPLES / "contended.csv").read_bytes()
    history = (EXAMPLES / "contended.history").read_bytes()
    tester.same("the first example", tester.run(tester.example), Outcome(0, tester.replies, b""))
    for _ in range(20):
        tester.same("the contended example", tester.run(contended, both), Outcome(0, history, b""))
    report = (EXAMPLES / "contended.report").read_bytes()
    tester.same(
        "the contended example, with a report",
        tester.run(contended, replace(both, report=True)),
        Outcome(0, history + report, b""),
    )


def fronts(tester: AuctionTester) -> None:
    """every front of an input"""
    rows = expected(tester.example, replace(FEW, rows=True)).stdout
    for text in (tester.example, rows + tester.example):
        for length in range(len(text) + 1):
            tester.as_model(f"the first {length} bytes of {text!r}", text[:length])


def line_ends(tester: AuctionTester) -> None:
    """line ends, empty lines, and marks of byte order"""
    for end in (b"\n", b"\r\n", b"\r", b"\n\r", b"\n\n\n", b"\r\n\r\n"):
        text = tester.example.replace(b"\n", end)
        for whole in (text, text.removesuffix(end), end + text, text + end):
            tester.same(f"lines that end with {end!r}", tester.run(whole), Outcome(0, tester.replies, b""))
    tester.same("a mark", tester.run(BYTE_ORDER_MARK + tester.example), Outcome(0, tester.replies, b""))
    tester.same("a mark alone", tester.run(BYTE_ORDER_MARK), Outcome(0, b"", b""))
    tester.same("two marks", tester.run(BYTE_ORDER_MARK * 2 + tester.example), fault(2, "record 1: not a number"))
    tester.same("a mark in the middle", tester.run(VASE + BYTE_ORDER_MARK + VIEW), fault(2, "record 2: not a number"))
    tester.same("half a mark", tester.run(BYTE_ORDER_MARK[:2] + VIEW), fault(2, "record 1: not a number"))


def quotes(tester: AuctionTester) -> None:
    """quotes where they open and close a field, and where they do not"""
    for written, name in {
        b"Vase": b"Vase",
        b'"Vase"': b"Vase",
        b'"a,b"': b"a,b",
        b'"a""b"': b'a"b',
        b'""""': b'"',
        b'a"b': b'a"b',
        b'a"b"': b'a"b"',
        b'"a"b': b"ab",
        b'"a"b"c"': b'ab"c"',
    }.items():
        got = tester.run(b"0,item,0,0,%s,10,100,1\n0,viewitem,0.0\n" % written)
        seen = b"0,1,viewitem seller=0 category=0 start=10 closes=100 highest=- bidder=- bids=0 left=1 name=" + name
        tester.same(f"the name {written!r}", got, Outcome(0, b"0,0,item 0.0\n" + seen + b"\n", b""))
    tester.same("a quote that is not closed", tester.run(b'0,viewuser,"0'), Outcome(0, b"0,0," + SEEN, b""))
    tester.same(
        "a line end in quotes", tester.run(b'0,viewuser,"0\n0,viewuser,0\n'), fault(2, "record 1: not a number")
    )


def million_empty_lines(tester: AuctionTester) -> None:
    """a million empty lines"""
    for end in (b"\n", b"\r\n", b"\r"):
        tester.same(f"a million {end!r}", tester.run(end * MILLION), Outcome(0, b"", b""))
        tester.same(
            f"a million {end!r} before a record", tester.run(end * MILLION + VIEW), Outcome(0, b"0,0," + SEEN, b"")
        )
        tester.same(
            f"a million {end!r} before a fault", tester.run(end * MILLION + b"x"), fault(2, "record 1: not a number")
        )


def every_byte(tester: AuctionTester) -> None:
    """every byte at every kind of place"""
    places = (
        b"%s",
        b"%s,viewuser,0",
        b"0,%s,0",
        b"0,viewuser,%s",
        b'0,viewuser,"%s"',
        b"0,item,0,0,a%sb,1,2,3",
        b'0,item,0,0,"a%sb",1,2,3',
        b"0,viewitem,0%s0",
    )
    for place, byte in product(places, range(256)):
        text = place % bytes([byte]) + b"\n"
        tester.as_model(f"{text!r}", text)


def long_fields(tester: AuctionTester) -> None:
    """fields of 50,000,000 bytes"""
    for byte in (b"1", b"a", b"\xff", b'""'):
        long = byte * (50_000_000 // len(byte))
        for before, text in (
            (b'"', "not a number"),
            (b'0,"', "unknown kind"),
            (b'0,viewuser,"', "not a number"),
            (b'0,viewitem,"', "not an item id"),
        ):
            tester.same(
                f"{before!r} and 50 MB of {byte!r}", tester.run(before + long + b'"\n'), fault(2, f"record 1: {text}")
            )
        name = b'0,item,0,0,"' + long + b'",1,2,3\n'
        tester.same(f"a name of 50 MB of {byte!r}", tester.run(name), fault(2, "record 1: not a name"))
    fields = b"0,item" + b",1" * 25_000_000
    tester.same("25,000,000 fields", tester.run(fields), fault(2, "record 1: wrong number of fields"))


# Numbers and words.

WORKED = {
    b"00,item": "not a number",
    b",item": "not a number",
    b"-0,item": "not a number",
    b"+0,item": "not a number",
    b"4294967296,item": "not a number",
    b"4294967295,item": "no such worker",
    b"1,nonsense": "no such worker",
    b"1,+bid,1,0.0,10,5": "no such worker",
    b"0": "wrong number of fields",
    b"0,": "unknown kind",
    b"0,Item": "unknown kind",
    b"0, bid,1,0.0,10,5": "unknown kind",
    b"0,viewusers,0": "unknown kind",
    b"0,+viewuser,0": "unknown kind",
    b"0,+viewitem,0.0": "unknown kind",
    b"0,++bid,1,0.0,10,5": "unknown kind",
    b"0,+,1": "unknown kind",
    b"0,bid,1,0.0,10": "wrong number of fields",
    b"0,viewitem,0.0,": "wrong number of fields",
    b"0,item,0,0,Vase,10,100,1,1,1": "wrong number of fields",
    b"0,comment,1,2,0.0": "wrong number of fields",
    b"0,comment,1,2,0.0,6,1": "wrong number of fields",
    b"0,buynow,1,0.0,1": "wrong number of fields",
    b"0,viewuser": "wrong number of fields",
    b"0,bid,01,0.0,10,5": "not a number",
    b"0,bid,+1,0.0,10,5": "not a number",
    b"0,bid,1,0.0,18446744073709551616,5": "not a number",
    b"0,viewitem,0.00": "not an item id",
    b"0,viewitem,4294967296.0": "not an item id",
    b"0,viewitem,0": "not an item id",
    b"0,viewbids,0": "not an item id",
    b"0,bid,x,0,10,5": "not a number",
    b"0,bid,1,0,x,5": "not an item id",
    b"0,comment,1,x,0,6": "not a number",
    b"0,comment,1,2,0,6": "not an item id",
    b"0,item,x,0,\xff,10,100,1": "not a number",
    b"0,item,0,0,\xff,10,100,1": "not a name",
    b"0,item,0,0,,10,100,1": "not a name",
    b"0,item,0,0,123456789012345678901234567890123,10,100,1": "not a name",
    b"0,comment,0,0,0.0,6": "not stars",
    b"0,comment,0,0,0.0,+5": "not stars",
    b"0,comment,0,0,0.0,-0": "not stars",
    b"0,item,0,0,Vase,10,100,1,0": "not a quantity",
    b"0,item,0,0,Vase,10,100,1,1000001": "not a quantity",
    b"0,item,0,0,Vase,10,100,1,01": "not a quantity",
    b"0,item,0,0,Vase,10,100,x,0": "not a number",
    b"0,buynow,0,0.0,01,1": "not a quantity",
    b"0,buynow,0,0.0,1000001,1": "not a quantity",
    b"0,buynow,0,0.0,0,x": "not a quantity",
}
WORKED_ROWS = {
    b"0,+bid,1,0.0,10": "wrong number of fields",
    b"0,+bid,1,0.0,10,x": "not a number",
}
NUMBERS = (
    b"|0|1|4|5|6|31|32|33|999999|1000000|1000001|4294967295|4294967296|9223372036854775807|9223372036854775808"
    b"|18446744073709551615|18446744073709551616|99999999999999999999|340282366920938463463374607431768211456"
    b"|00|01|007|000000000000000000000001|+0|+4|-0|-1|-5|-6| 1|1 |1.0|1_000|0x1|1e3|\xc2\xb2|0.0|0.00"
    b"|00.0|.|0.|.0|0.0.0|+0.0|0.4294967295|0.4294967296|4294967295.0|4294967296.0|0.18446744073709551616"
).split(b"|")
RECORDS = (
    b"item,0,0,Vase,10,100,1,2",
    b"bid,1,0.0,10,5",
    b"comment,1,2,0.0,-5",
    b"buynow,1,0.0,1,5",
    b"viewitem,0.0",
    b"viewbids,0.0",
    b"viewcategory,0",
    b"viewuser,0",
)


def worked_faults(tester: AuctionTester) -> None:
    """a fault for each check of a record, by hand"""
    for record, text in WORKED.items():
        tester.same(f"{record!r}", tester.run(record), fault(2, f"record 1: {text}"))
        tester.same(f"{record!r} third", tester.run(VASE + VIEW + record), fault(2, f"record 3: {text}"))
    for record, text in WORKED_ROWS.items():
        tester.same(
            f"{record!r} after a row", tester.run(b"0,+bid,1,0.0,10,5\n" + record), fault(2, f"record 2: {text}")
        )
    tester.same(
        "a fault after an empty line",
        tester.run(VIEW + b"\n" + VIEW + b"0,bid,1,0.0,10"),
        fault(2, "record 3: wrong number of fields"),
    )
    tester.same("a row after a request", tester.run(VIEW + b"0,+item"), fault(2, "record 2: row after a request"))
    late = tester.run(b"0,+bid,1,0.0,10,5\n1,viewuser,1\n0,+bid,1,0.0,11,5\n", Options(workers=2))
    tester.same("a row after another worker's request", late, fault(2, "record 3: row after a request"))
    tester.same("a refused row", tester.run(b"0,+item,0,0,Vase,10,100,1\n0,+bid,1,0.0,9,5"), fault(3, "row 2: refused"))


def numbers_in_fields(tester: AuctionTester) -> None:
    """numbers at every limit in every field"""
    row = b"0,+item,0,0,Vase,10,100,1,1000000\n"
    views = b"0,viewitem,0.0\n0,viewitem,0.1\n0,viewbids,0.0\n0,viewcategory,0\n0,viewuser,2\n"
    for record, plus in product(RECORDS, (b"", b"+")):
        fields = [b"0", *(plus + record).split(b",")]
        for place, number in product(range(len(fields)), NUMBERS):
            text = b",".join(fields[:place] + [number] + fields[place + 1 :]) + b"\n"
            tester.as_model(f"{text!r}", row + text + views, replace(FEW, history=True))


def stars(tester: AuctionTester) -> None:
    """stars from -5 to 5, and what is none"""
    for number in range(-5, 6):
        got = tester.run(VASE + b"0,comment,0,1,0.0,%d\n0,viewuser,1\n" % number)
        seen = b"0,2,user rating=%d comments=1\n" % number
        tester.same(f"{number} stars", got, Outcome(0, b"0,0,item 0.0\n0,1,comment 0.0\n" + seen, b""))
    for text in (b"6", b"-6", b"+1", b"00", b"-0", b"", b"-", b"10", b"-10", b"1 ", b"--1"):
        tester.same(f"{text!r} stars", tester.run(b"0,comment,1,2,0.0," + text), fault(2, "record 1: not stars"))


OPTION_LIMITS = {
    "workers": (1, 16),
    "shards": (1, 64),
    "joined": (1, MILLION),
    "split": (1, MILLION),
    "threshold": (1, MILLION),
    "hot": (0, 64),
    "users": (0, MILLION),
    "categories": (0, MILLION),
}
BEYOND_OPTIONS = (
    *map(str, (2**31, 2**32, 2**32 + 4, 2**63 - 1, 2**63, 2**64 - 1, 2**64, 2**64 + 4)),
    "9" * 100_000,
)
NO_OPTION_NUMBERS = ("", " 4", "4 ", "-1", "--4", "++4", "4.0", "0x4", "1e1", "four", "4,0", "1_0")


def numbers_in_options(tester: AuctionTester) -> None:
    """numbers at every limit for every option; in options, unlike records, a plus and leading zeros may stand"""
    for option, (least, most) in OPTION_LIMITS.items():
        for number in {least, least + 1, 4, 7, most - 1, most}:
            for text in (f"{number}", f"+{number}", f"00{number}", f"+0{number}"):
                option_is_taken(tester, option, text, number)
        for text in (str(least - 1), str(most + 1), *BEYOND_OPTIONS, *NO_OPTION_NUMBERS):
            options_are_refused(tester, f"--{option}={text}")
        options_are_refused(tester, f"--{option}")
        options_are_refused(tester, f"--{option}=4", f"--{option}=4")


def option_is_taken(tester: AuctionTester, option: str, text: str, number: int) -> None:
    base = replace(FEW, history=True)
    data = VASE * 3 + b"0,bid,1,0.0,10,5\n0,comment,2,3,0.1,4\n0,viewuser,3\n0,viewitem,0.0\n" * 4
    wanted = expected(data, replace(base, **{option: number}))
    others = [word for word in base.words() if not word.startswith(f"--{option}=")]
    for words in ([f"--{option}={text}"], [f"--{option}", text]):
        tester.same(f"{words}", run([tester.program, *others, *words], data), wanted)


def options_are_refused(tester: AuctionTester, *words: str | bytes, why: bytes = b"") -> None:
    got = run([tester.program, *words], VIEW)
    right = got.status == 1 and got.stdout == b"" and re.match(rb"error: \S", got.stderr) and why in got.stderr
    tester.tally.check(bool(right), f"options {str(words):.60} are refused: {described(got)}")


def numbers_without_words(tester: AuctionTester) -> None:
    """what each option is without its word"""
    rows = b"".join(b"0,+item,0,0,Vase%d,1,100,1\n" % item for item in range(12))
    bids = b"".join(b"0,bid,0,0.%d,%d,5\n" % (item, bid + 1) for item in range(12) for bid in range(item))
    views = b"0,viewuser,99\n0,viewuser,100\n0,viewcategory,9\n0,viewcategory,10\n"
    for joined, option in product((3, 66), OPTION_LIMITS):
        others = Options(joined=joined, split=70, threshold=1, hot=64, users=5, categories=2, history=True, report=True)
        words = [word for word in others.words() if not word.startswith(f"--{option}=")]
        wanted = expected(rows + bids + views, replace(others, **{option: getattr(Options(), option)}))
        tester.same(f"no --{option} beside {words}", run([tester.program, *words], rows + bids + views), wanted)


def numbers_for_speed(tester: AuctionTester) -> None:
    """the quotas that --fast says, and numbers given beside it, before it and after it"""
    data, fast = VASE + b"0,bid,1,0.0,10,5\n" * 9 + VIEW * 8_500, Options(split=4096, history=True)
    for given in ({}, {"shards": 1}, {"joined": 5}, {"split": 64}, {"shards": 64, "joined": 100, "split": MILLION}):
        words = [f"--{option}={number}" for option, number in given.items()]
        for line in (["--fast", *words], [*words, "--fast"]):
            tester.same(
                f"{line}", run([tester.program, "--history", *line], data), expected(data, replace(fast, **given))
            )


def words_in_both_forms(tester: AuctionTester) -> None:
    """numbers after an equals sign and after a space, a flag, and the name of a log"""
    replies = b"15,0,refused 1 NoSuchUser\n15,1,latest\n"
    report = b"phases 1\nrequests 2\nrefused 1\n" + b"".join(b"category %d latest\n" % number for number in range(10))
    for words, text in ((["--report"], replies + report), (["--log", "rows.csv"], replies)):
        words = ["--workers", "16", "--users=0", *words]
        got = run([tester.program, *words], b"15,viewuser,0\n15,viewcategory,9\n", cwd=tester.folder)
        tester.same(f"{words}", got, Outcome(0, text, b""))
    tester.tally.check((tester.folder / "rows.csv").read_bytes() == b"", "a log of no rows")


def reasons_of_options(tester: AuctionTester) -> None:
    """why options are refused"""
    options_are_refused(tester, "--workers=17", why=b"17 is not in 1..=16")
    options_are_refused(tester, "--shards=0", why=b"0 is not in 1..=64")
    options_are_refused(tester, "--hot=65", why=b"invalid value '65' for '--hot")
    options_are_refused(tester, "--split=x", why=b"invalid value 'x' for '--split")
    options_are_refused(tester, "--windows=1", why=b"unexpected argument '--windows' found")
    for how in ("stop", "answers", "End", "", "en", "end "):
        options_are_refused(
            tester,
            "--live=1",
            f"--faults={how}",
            why=f"invalid value '{how}' for '--faults <HOW>'\n  [possible values: answer, end]\n".encode(),
        )
    for words in (["--faults=answer"], ["--faults", "answer", "--live=0"], ["--faults=answer", "--log=unmade"]):
        options_are_refused(tester, *words, why=b"'--faults answer' needs '--live <N>' of at least 1")
    options_are_refused(tester, "--live=1", "--faults", why=b"'--faults <HOW>'")
    options_are_refused(tester, "--live=1", "--faults=end", "--faults=end", why=b"'--faults <HOW>'")


def odd_words(tester: AuctionTester) -> None:
    """words that are no option"""
    for word in ("--worker=2", "workers", "--history=1", "-", "-x", "--=4", "", b"\xff", b"--workers=\xff"):
        options_are_refused(tester, word)
    for words in (("--history", "--history"), ("--rows", "--rows"), ("--fast", "--fast"), ("--fast=1",), ("--", "x")):
        options_are_refused(tester, *words)
    options_are_refused(tester, *["--history"] * 1000)
    tester.same("no environment", tester.run(tester.example, env={}), Outcome(0, tester.replies, b""))


def help_and_version(tester: AuctionTester) -> None:
    """help, as docs/help has it, with each option's limits and what it is without words,
    its examples, and the version"""
    said = helps.help_and_version(tester.tally, tester.program, "rubis_auction", True)
    numbers = {option: (int(least), int(most), int(usual)) for option, least, most, usual in helps.NUMBER.findall(said)}
    wanted = {option: (*limits, getattr(Options(), option)) for option, limits in OPTION_LIMITS.items()}
    wanted["live"] = (0, MILLION, 0)
    tester.tally.check(numbers == wanted, f"what --help says of numbers: {numbers}")
    flags = {option.name for option in fields(Options)} - set(OPTION_LIMITS)
    tester.tally.check(
        set(helps.OPTION.findall(said)) == {*wanted, *flags, "fast", "faults", "log", "help", "version"},
        "what --help has a line of",
    )
    for name in ("first.csv", "load.csv"):
        (tester.folder / name).write_bytes(tester.example)
    helps.examples(tester.tally, said, "rubis_auction", tester.folder, {"rubis_auction": tester.program})


def names(tester: AuctionTester) -> None:
    """names of 0 to 33 bytes"""
    for name in (
        *(b"~" * length for length in range(34)),
        b" ",
        b" a ",
        b'"a,b"',
        b'","',
        b'""""',
        b'""""""',
        b'"' + b'""' * 32 + b'"',
        b'"' + b'""' * 33 + b'"',
    ):
        item = b"0,item,0,0,%s,10,100,1\n0,viewitem,0.0\n" % name
        for rows in (False, True):
            tester.as_model(f"name {name!r}", item, replace(FEW, rows=rows))


def lists_of_ten(tester: AuctionTester) -> None:
    """9 to 12 bids on an item, and items of a category"""
    for length in range(9, 13):
        items = b"".join(b"0,item,0,0,Vase,1,100,%d\n" % (item * 7 % 11) for item in range(length))
        bids = b"".join(b"0,bid,0,0.0,%d,5\n" % (1 + bid * 7 % 11) for bid in range(length))
        tester.as_model(f"{length} of each", items + bids + b"0,viewbids,0.0\n0,viewitem,0.0\n0,viewcategory,0\n")


def hot_objects(tester: AuctionTester) -> None:
    """more objects that are hot enough than may be hot"""
    rows = b"".join(b"0,+item,0,0,Vase%d,1,100,%d\n" % (item, item) for item in range(70))
    bids = b"".join(b"0,bid,0,0.%d,%d,5\n" % (item, bid + 1) for item in range(70) for bid in range(1 + item % 3))
    views = b"".join(b"0,viewitem,0.%d\n" % item for item in range(70))
    for threshold, hot in product((1, 2, 3, 4), (0, 1, 63, 64)):
        options = Options(
            joined=140, split=70, threshold=threshold, hot=hot, users=1, categories=1, history=True, report=True
        )
        tester.as_model(f"threshold {threshold}, hot {hot}", rows + bids + views, options)


# Several workers.

EACH_KIND = (
    b"item,1,1,Vase,10,100,3",
    b"bid,1,0.0,10,5",
    b"comment,1,2,0.0,3",
    b"viewitem,0.0",
    b"viewbids,0.0",
    b"viewcategory,1",
    b"viewuser,2",
    b"buynow,1,0.0,1,5",
)
OF_EACH_WORKER = 6_250


def replies_in_order(tester: AuctionTester) -> None:
    """replies of 16 workers stand in order, though views of what is hot wait, and so do purchases"""
    data = b"".join(
        b"%d,%s\n" % (worker, EACH_KIND[index % 8]) for index in range(OF_EACH_WORKER) for worker in range(16)
    )
    got = tester.run(data, Options(workers=16, threshold=1, users=10, categories=2))
    tester.same("requests of all kinds", replace(got, stdout=b""), Outcome(0, b"", b""))
    lines = got.stdout.splitlines()
    right = all(line.startswith(b"%d,%d," % divmod(place, OF_EACH_WORKER)) for place, line in enumerate(lines))
    tester.tally.check(right and len(lines) == 16 * OF_EACH_WORKER, "requests of all kinds: the order of their replies")


def few_shards(tester: AuctionTester) -> None:
    """16 workers who bid on three items in threads, of which nothing is hot: commits that share a
    shard have different numbers"""
    bids = b"".join(
        b"%d,bid,%d,0.%d,10,7\n" % (worker, worker, turn % 3) for worker in range(16) for turn in range(900)
    )
    first = VASE * 3 + b"".join(b"%d,viewuser,0\n" % worker * 3 for worker in range(1, 16))
    options = Options(
        workers=16, shards=3, joined=3, split=900, threshold=1, hot=0, users=16, categories=2, history=True
    )
    got = tester.run(first + bids + b"0,viewitem,0.0\n0,viewitem,0.1\n0,viewitem,0.2\n", options)
    tester.same("14,400 bids on three items", replace(got, stdout=b""), Outcome(0, b"", b""))
    lines = got.stdout.splitlines()
    for item in range(3):
        numbers = [int(words[1]) for words in map(bytes.split, lines) if words[0] == b"1" and int(words[3]) % 3 == item]
        tester.tally.check(len(numbers) == len(set(numbers)) == 4_800, f"item {item}: the numbers of its bids")
        seen = b"viewitem seller=0 category=0 start=10 closes=100 highest=10 bidder=15 bids=4800 left=1 name=Vase"
        tester.tally.check(lines[item - 3].endswith(seen), f"item {item}: what is seen of its bids")


def one_hot_item(tester: AuctionTester) -> None:
    """16 workers who bid on one hot item in threads: each counts its own commits"""
    first = VASE + b"0,bid,0,0.0,10,7\n" + b"".join(b"%d,viewuser,0\n" % worker * 2 for worker in range(1, 16))
    bids = b"".join(b"%d,bid,%d,0.0,10,7\n" % (worker, worker) * 1_000 for worker in range(16))
    options = Options(workers=16, joined=2, split=1_000, threshold=1, users=16, categories=2, history=True)
    got = tester.run(first + bids + b"0,viewbids,0.0\n0,viewitem,0.0\n", options)
    tester.same("16,000 bids on a hot item", replace(got, stdout=b""), Outcome(0, b"", b""))
    *lines, listed, last = got.stdout.splitlines()
    places = [line.split()[:4] for line in lines if line.startswith(b"1 ")]
    wanted = [
        [b"1", b"%d" % (turn + 1), b"%d" % worker, b"%d" % (turn + 2)]
        for turn, worker in product(range(1_000), range(16))
    ]
    tester.tally.check(places == wanted, "16,000 bids on a hot item: their places")
    ten = b"".join(b" 10:7:15:15.%d" % serial for serial in range(999, 989, -1))
    tester.tally.check(listed == b"2 1 0 1002 bids" + ten, "16,000 bids on a hot item: the ten highest")
    seen = (
        b"2 2 0 1003 viewitem seller=0 category=0 start=10 closes=100 highest=10 bidder=15 bids=16001 left=1 name=Vase"
    )
    tester.tally.check(last == seen, "16,000 bids on a hot item: all of them")


def sixty_four_hot_objects(tester: AuctionTester) -> None:
    """two workers bid on 63 hot items of a hot category"""
    items = [b"0.%d" % serial for serial in range(63)]
    bids = [
        b"%d,bid,%d,%s,%d,1\n" % (worker, bidder, item, amount)
        for worker, bidder, amount in ((0, 0, 10), (0, 1, 20), (1, 2, 15))
        for item in items
    ]
    views = b"".join(b"0,viewitem,%s\n" % item for item in items)
    options = Options(workers=2, joined=126, split=63, threshold=1, hot=64, users=10, categories=2, report=True)
    got = tester.run(VASE * 63 + b"1,viewuser,0\n" * 126 + b"".join(bids) + views, options)
    tester.same("64 hot objects", replace(got, stdout=b""), Outcome(0, b"", b""))
    lines = got.stdout.splitlines()
    seen = b"viewitem seller=0 category=0 start=10 closes=100 highest=20 bidder=1 bids=3 left=1 name=Vase"
    merged = lines[189:252] == [b"0,%d,%s" % (index, seen) for index in range(189, 252)]
    tester.tally.check(merged, "64 hot objects: each item is seen with its three bids")
    tester.tally.check(
        b" ".join([b"hot 1 c0", *(b"i" + item for item in items)]) in lines, "64 hot objects: their order"
    )


# Very much.

TOO_LONG = fault(3, "more than 1000000 requests for a worker")
MOST_BYTES = 10**9


def requests_of_a_worker(tester: AuctionTester) -> None:
    """1,000,000 rows and requests of a worker, and one more"""
    row, bad = b"0,+item,0,0,Vase,10,100,1\n", b"0,+bid,0,7.7,1,1\n"
    fits = tester.run_large([row, VIEW * (MILLION - 1)])
    tester.answers("a row and 999,999 requests", fits, (b"0,%d,%s" % (index, SEEN) for index in range(MILLION - 1)))
    for what, parts in {
        "1,000,001 requests": [VIEW * (MILLION + 1)],
        "a row and 1,000,000 requests": [row, VIEW * MILLION],
        "1,000,001 rows": [row * (MILLION + 1)],
        "1,000,001 rows, of which the first is refused": [bad, row * MILLION],
    }.items():
        tester.same(what, tester.run_large(parts), TOO_LONG)
    tester.same(
        "a refused row, and too many requests with it",
        tester.run_large([bad, VIEW * MILLION]),
        fault(3, "row 1: refused"),
    )


def million_categories(tester: AuctionTester) -> None:
    """a report of 1,000,000 categories and users"""
    options = Options(users=MILLION, categories=MILLION, rows=True, report=True)
    data = b"0,+item,999999,999999,Vase,10,100,1\n0,+comment,0,999999,0.0,-5\n"
    wanted = expected(data, options)
    tester.same("1,000,000 categories", tester.run(data, options), wanted)


def records_of_an_input(tester: AuctionTester) -> None:
    """16,000,000 records, and one more"""
    if shutil.disk_usage(tester.folder).free < MOST_BYTES:
        return tester.tally.skip(records_of_an_input.__doc__, "there is too little room for temporary files")
    options = Options(workers=16, joined=MILLION)
    got = tester.run_large((b"%d,viewuser,0\n" % worker * MILLION for worker in range(16)), options)
    lines = (b"%d,%d,%s" % (worker, index, SEEN) for worker in range(16) for index in range(MILLION))
    tester.answers("16,000,000 records", got, lines)
    for what in (VIEW, b"x"):
        with tester.input.open("ab") as file:
            file.write(what)
        tester.same(f"and {what!r}", tester.run_input(options), fault(2, "more than 16000000 records"))
    tester.same("16,000,000 records of one worker", tester.run_large(VIEW * MILLION for _ in range(16)), TOO_LONG)


CHECKS = (
    examples,
    fronts,
    line_ends,
    quotes,
    million_empty_lines,
    every_byte,
    long_fields,
    worked_faults,
    numbers_in_fields,
    stars,
    numbers_in_options,
    numbers_without_words,
    numbers_for_speed,
    words_in_both_forms,
    reasons_of_options,
    odd_words,
    help_and_version,
    names,
    lists_of_ten,
    hot_objects,
    replies_in_order,
    few_shards,
    one_hot_item,
    sixty_four_hot_objects,
    requests_of_a_worker,
    million_categories,
    records_of_an_input,
)

if __name__ == "__main__":
    main(__doc__, CHECKS)
