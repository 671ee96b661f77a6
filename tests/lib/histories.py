"""Whether what several workers printed is lawful by docs/DEFINITIONS.md and docs/FORMATS.md.

Threads choose which of the lawful histories comes, so no text is the expected one. A printed history is checked
whole. Printed replies are lawful where some order of each phase explains them, which is searched for; printed rows
where each is a row at its place.
"""

import re
from collections import Counter
from itertools import count
from typing import Iterator

from lib.model import (
    Book,
    Entry,
    Options,
    Run,
    choose_hot,
    is_put_off,
    is_refusal,
    is_split,
    quota,
    report_text,
    rows_text,
    views_text,
)
from lib.records import Asked, Fault, Id, Item, Object, Request, item_object, read_input

MOST_ROWS_LOOKED_AT = 1_000_000
COUNTS = re.compile("phases ([0-9]+)\nrequests ([0-9]+)\nrefused ([0-9]+)\n")
HOT_LINE = re.compile("hot ([0-9]+) (.+)\n")


class Difference(Exception):
    """What is printed is not lawful, and why."""


class Undecided(Exception):
    """The search for an explaining order was given up."""


def require(holds: bool, complaint: str) -> None:
    if not holds:
        raise Difference(complaint)


def check_printed(printed: str, asked: Asked, book: Book, options: Options) -> None:
    """Checks all that a run printed. The book is the one that the run began with."""
    if options.rows:
        check_rows(printed, asked, book, options)
    elif options.history:
        check_history(printed, asked, book, options)
    else:
        check_replies(printed, asked, book, options)


def check_history(printed: str, asked: Asked, book: Book, options: Options) -> None:
    """Checks a history, and the report after it."""
    lines, report = split_lines(printed, asked.requests())
    entries = [read_entry(line, asked.scripts) for line in lines]
    check_served(entries, asked.scripts)
    run = Run(entries, hot_sets_of(entries, options))
    check_order(entries)
    check_sessions(entries)
    check_phases(run, options)
    check_numbers(run, options)
    check_replay(entries, book)
    check_report(report, run, book, options)


def split_lines(printed: str, count: int) -> tuple[list[str], str]:
    """So many lines, and the text after them."""
    *lines, rest = printed.split("\n", count)
    require(len(lines) == count, "there are fewer lines than requests")
    return lines, rest


def read_entry(line: str, scripts: list[list[Request]]) -> Entry:
    parts = line.split(" ", 4)
    require(len(parts) == 5 and all(part.isdecimal() for part in parts[:4]), f"no line of a history: {line}")
    phase, number, worker, index = map(int, parts[:4])
    require(worker < len(scripts) and index < len(scripts[worker]), f"no script has this request: {line}")
    entry = Entry(phase, number, worker, index, scripts[worker][index], parts[4])
    require(entry.line() == line + "\n", f"a number is not in its usual form: {line}")
    return entry


def check_served(entries: list[Entry], scripts: list[list[Request]]) -> None:
    served = sorted((entry.worker, entry.index) for entry in entries)
    scripted = [(worker, index) for worker, script in enumerate(scripts) for index in range(len(script))]
    require(served == scripted, "a request stands there twice, and another is missing")


def hot_sets_of(entries: list[Entry], options: Options) -> list[list[Object]]:
    phases = 1 + max((entry.phase for entry in entries), default=-1)
    by_phase = [[entry for entry in entries if entry.phase == phase] for phase in range(phases)]
    return [choose_hot(by_phase[phase - 1], options) if is_split(phase) else [] for phase in range(phases)]


def check_order(entries: list[Entry]) -> None:
    places = [(entry.phase, entry.number, entry.worker) for entry in entries]
    for before, after in zip(places, places[1:]):
        require(before < after, f"phase, number and worker do not ascend from {before} to {after}")


def check_sessions(entries: list[Entry]) -> None:
    """A worker's commits of a phase are in script order, and none comes before an earlier
    splittable store of its script."""
    last_in_phase: dict[tuple[int, int], int] = {}
    greatest: dict[int, int] = {}
    for entry in entries:
        turn = entry.phase, entry.worker
        require(entry.index > last_in_phase.get(turn, -1), f"out of script order: {entry.line()}")
        overtaken = entry.request.is_splittable and entry.index < greatest.get(entry.worker, -1)
        require(not overtaken, f"a later request of its script came first: {entry.line()}")
        last_in_phase[turn] = entry.index
        greatest[entry.worker] = max(entry.index, greatest.get(entry.worker, -1))


def check_phases(run: Run, options: Options) -> None:
    for entry in run.entries:
        phase = commit_phase(entry.index, entry.request, run.hot_sets, options)
        require(entry.phase == phase, f"this commits in phase {phase}: {entry.line()}")


def phase_reached(index: int, options: Options) -> int:
    rounds, place = divmod(index, options.joined + options.split)
    return 2 * rounds + (place >= options.joined)


def commit_phase(index: int, request: Request, hot_sets: list[list[Object]], options: Options) -> int:
    reached = phase_reached(index, options)
    hot = hot_sets[reached] if reached < len(hot_sets) else []
    return reached + is_put_off(request, hot)


def check_numbers(run: Run, options: Options) -> None:
    """Each number is 1 + the greatest before it, in its phase, of the same worker or of a shard that both take."""
    clocks: dict[tuple, int] = {}
    for entry in run.entries:
        shards = footprint(entry, run.hot_sets[entry.phase], options.shards)
        met = [(entry.phase, "worker", entry.worker)] + [(entry.phase, "shard", shard) for shard in shards]
        number = 1 + max(clocks.get(clock, 0) for clock in met)
        require(entry.number == number, f"the number should be {number}: {entry.line()}")
        clocks.update(dict.fromkeys(met, number))


def footprint(entry: Entry, hot: list[Object], shards: int) -> set[int]:
    if entry.reply in ("refused 1 NoSuchUser", "refused 2 NoSuchCategory"):
        return set()
    taken = list(entry.request.touches())
    if isinstance(entry.request, Item):
        taken.append(item_object(stored_id(entry.reply)))
    return {thing.shard(shards) for thing in taken if thing not in hot}


def stored_id(reply: str) -> Id:
    parts = reply.partition(" ")[2].split(".")
    require(len(parts) == 2 and all(part.isdecimal() for part in parts), f"no reply to a store: {reply}")
    return Id(*map(int, parts))


def check_replay(entries: list[Entry], book: Book) -> None:
    for entry in entries:
        reply = book.perform(entry.worker, entry.request)
        require(entry.reply == reply, f"the reply should be '{reply}': {entry.line()}")


def check_report(printed: str, run: Run, book: Book, options: Options) -> None:
    wanted = report_text(run, book) if options.report else ""
    require(printed == wanted, f"the report should be\n{wanted}and is\n{printed}")


def check_replies(printed: str, asked: Asked, book: Book, options: Options) -> None:
    """Checks replies, and the report after them."""
    lines, report = split_lines(printed, asked.requests())
    run = Run()
    for hot, turns in phases_of(read_replies(lines, asked.scripts), options):
        require(
            Search(turns, book).explains((0,) * len(turns)),
            f"no order of phase {len(run.hot_sets)} explains the replies",
        )
        run.entries += together(turns)
        run.hot_sets.append(hot)
    check_report(report, run, book, options)


def read_replies(lines: list[str], scripts: list[list[Request]]) -> list[list[Entry]]:
    """Entries without phase and number, as the replies give them, for each worker."""
    calls = [(worker, index) for worker, script in enumerate(scripts) for index in range(len(script))]
    entries: list[list[Entry]] = [[] for _ in scripts]
    for line, (worker, index) in zip(lines, calls):
        head = f"{worker},{index},"
        require(line.startswith(head), f"this line should begin with {head} {line}")
        entries[worker].append(Entry(0, 0, worker, index, scripts[worker][index], line.removeprefix(head)))
    return entries


def together(turns: list[list[Entry]]) -> list[Entry]:
    return [entry for turn in turns for entry in turn]


def phases_of(coming: list[list[Entry]], options: Options) -> Iterator[tuple[list[Object], list[list[Entry]]]]:
    """The hot set of each phase, and what each worker commits in it, in its order."""
    waiting: list[list[Entry]] = [[] for _ in coming]
    turns: list[list[Entry]] = []
    for phase in count():
        if not any(coming) and not any(waiting):
            return
        hot = choose_hot(together(turns), options) if is_split(phase) else []
        due = [waits + comes[: quota(phase, options)] for waits, comes in zip(waiting, coming)]
        coming = [comes[quota(phase, options) :] for comes in coming]
        waiting = [[entry for entry in calls if is_put_off(entry.request, hot)] for calls in due]
        turns = [[entry for entry in calls if not is_put_off(entry.request, hot)] for calls in due]
        yield hot, turns


class Search:
    """A search for an order of one phase in which each reply is the model's.

    A reply depends on which rows are there, not on their order. So what adds no row may come as soon as its reply is
    right, and where the workers stand in their turns says all of a state.
    """

    def __init__(self, turns: list[list[Entry]], book: Book) -> None:
        self.turns = turns
        self.book = book
        self.tried: set[tuple[int, ...]] = set()
        self.rows_looked_at = 0

    def explains(self, places: tuple[int, ...]) -> bool:
        places = self.past_what_adds_no_row(places)
        if all(place == len(turn) for place, turn in zip(places, self.turns)):
            return True
        if places in self.tried:
            return False
        self.tried.add(places)
        return any(self.explains_after_store_of(worker, places) for worker in range(len(places)))

    def past_what_adds_no_row(self, places: tuple[int, ...]) -> tuple[int, ...]:
        return tuple(self.past_lookers_of(worker, place) for worker, place in enumerate(places))

    def past_lookers_of(self, worker: int, place: int) -> int:
        turn = self.turns[worker]
        while place < len(turn) and not adds_row(turn[place]) and self.is_right(turn[place]):
            place += 1
        return place

    def explains_after_store_of(self, worker: int, places: tuple[int, ...]) -> bool:
        turn, place = self.turns[worker], places[worker]
        if place == len(turn) or not adds_row(turn[place]) or not self.is_right(turn[place]):
            return False
        self.book.perform(worker, turn[place].request)
        if self.explains(places[:worker] + (place + 1,) + places[worker + 1 :]):
            return True
        self.book.rows.pop()
        return False

    def is_right(self, entry: Entry) -> bool:
        self.rows_looked_at += 1 + len(self.book.rows)
        if self.rows_looked_at > MOST_ROWS_LOOKED_AT:
            raise Undecided
        return entry.reply == self.book.reply(entry.worker, entry.request)


def adds_row(entry: Entry) -> bool:
    return entry.request.is_store and entry.is_accepted()


def check_rows(printed: str, asked: Asked, book: Book, options: Options) -> None:
    """Checks the rows of a run, and of the report after them what rows tell."""
    text, report = split_report(printed) if options.report else (printed, "")
    opening = rows_text(book)
    require(text.startswith(opening), "the text does not begin with the opening rows")
    added = read_rows(text.removeprefix(opening), options.workers)
    for worker, request in added:
        reply = book.perform(worker, request)
        require(not is_refusal(reply), f"this is no row at its place ({reply}): {request}")
    require(rows_text(book) == text, "a row is not in its usual form")
    check_stored(added, asked.scripts)
    if options.report:
        views = views_text(book)
        require(report.endswith(views), f"the report should end with\n{views}and is\n{report}")
        check_report_of_rows(report.removesuffix(views), asked, [request for _, request in added], options)


def split_report(printed: str) -> tuple[str, str]:
    place = ("\n" + printed).find("\nphases ")
    require(place >= 0, "there is no report")
    return printed[:place], printed[place:]


def read_rows(text: str, workers: int) -> list[tuple[int, Request]]:
    try:
        return read_input(text.encode("utf-8"), workers).rows
    except Fault as fault:
        raise Difference(f"the rows cannot be read again: {fault.text}") from None


def check_stored(added: list[tuple[int, Request]], scripts: list[list[Request]]) -> None:
    """Each row is of a store of its worker's script, the splittable ones in script order."""
    for worker, script in enumerate(scripts):
        stored = [request for of_worker, request in added if of_worker == worker]
        require(not Counter(stored) - Counter(script), f"worker {worker} has rows that its script does not ask for")
        rest = iter(script)
        in_order = all(request in rest for request in stored if request.is_splittable)
        require(in_order, f"worker {worker} has rows out of script order")


def check_report_of_rows(report: str, asked: Asked, added: list[Request], options: Options) -> None:
    """Checks the counts and the hot sets of a report, as far as the rows that were added tell them."""
    counts = COUNTS.match(report)
    require(counts is not None, f"the counts are not there: {report}")
    phases, requests, refused = map(int, counts.groups())
    require(phases in phases_possible(asked, options), f"there are not so many phases: {report}")
    require(requests == asked.requests(), f"there are {asked.requests()} requests: {report}")
    stores = sum(request.is_store for script in asked.scripts for request in script)
    require(stores - len(added) <= refused <= requests - len(added), f"{len(added)} rows were added: {report}")
    check_hot_lines(report[counts.end() :], phases, added, options)


def phases_possible(asked: Asked, options: Options) -> tuple[int, ...]:
    """As many as the requests reach, and one more where the last of these is split and may have put something off."""
    reached = [phase_reached(len(script) - 1, options) for script in asked.scripts if script]
    if not reached:
        return (0,)
    last = max(reached)
    return (last + 1, last + 2) if is_split(last) else (last + 1,)


def check_hot_lines(text: str, phases: int, added: list[Request], options: Options) -> None:
    """Each is of a later split phase than the one before it, and of objects that enough of the rows write."""
    heat = Counter(str(request.writes()) for request in added if request.is_splittable)
    latest = 0
    for line in text.splitlines(keepends=True):
        found = HOT_LINE.fullmatch(line)
        require(found is not None, f"no line of a hot set: {line}")
        phase, hot = int(found[1]), found[2].split(" ")
        require(is_split(phase) and latest < phase < phases, f"there is no such hot set: {line}")
        require(len(hot) == len(set(hot)) <= options.hot, f"too many objects are hot, or one twice: {line}")
        require(all(heat[thing] >= options.threshold for thing in hot), f"something is not hot enough: {line}")
        latest = phase
