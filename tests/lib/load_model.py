"""The loads that `rubis_load` has to write, in every draw: what docs/CHECKING.md says of them, over the published
definitions of SplitMix64, Xoshiro256++ and Zipf's law."""

from bisect import bisect_right
from dataclasses import dataclass
from decimal import Decimal, getcontext
from itertools import accumulate
from typing import Iterator

getcontext().prec = 50
WORD = 2**64 - 1


@dataclass(frozen=True)
class Plan:
    """The options of a load."""

    requests: int = 1000
    workers: int = 1
    items: int = 100
    users: int = 100
    categories: int = 10
    skew: int = 0
    views: int = 85
    comments: int = 3
    purchases: int = 2
    new_items: int = 2
    seed: int = 1

    def words(self) -> list[str]:
        return [f"--{name.replace('_', '-')}={value}" for name, value in vars(self).items()]

    def item(self, place: int) -> str:
        return f"{place % self.workers}.{place // self.workers}"


def split_mix(state: int) -> Iterator[int]:
    """SplitMix64 (Steele, Lea and Flood, OOPSLA 2014)."""
    while True:
        state = (state + 0x9E3779B97F4A7C15) & WORD
        word = ((state ^ state >> 30) * 0xBF58476D1CE4E5B9) & WORD
        word = ((word ^ word >> 27) * 0x94D049BB133111EB) & WORD
        yield word ^ word >> 31


def turned(word: int, bits: int) -> int:
    return (word << bits | word >> 64 - bits) & WORD


class Draws:
    """Xoshiro256++ (Blackman and Vigna, 2021), whose first state SplitMix64 makes of the seed."""

    def __init__(self, seed: int) -> None:
        words = split_mix(seed)
        self.state = [next(words) for _ in range(4)]

    def word(self) -> int:
        a, b, c, d = self.state
        drawn = (turned((a + d) & WORD, 23) + a) & WORD
        c, d = c ^ a, d ^ b
        self.state = [a ^ d, b ^ c, c ^ (b << 17) & WORD, turned(d, 45)]
        return drawn

    def below(self, count: int, bits: int = 32) -> int:
        """A number below the count, by a fraction of so many bits; by one of twice as many where that is
        not enough (Canon's method)."""
        drawn, rest = divmod((self.word() >> 64 - bits) * count, 2**bits)
        if rest > 2**bits - count:
            drawn += (rest + ((self.word() >> 64 - bits) * count >> bits)) >> bits
        return drawn

    def between(self, least: int, greatest: int, bits: int = 32) -> int:
        return least + self.below(greatest - least + 1, bits)


def logarithm(number: int) -> int:
    """The binary logarithm with 24 binary places, cut off."""
    whole = number.bit_length() - 1
    rest, places = number << 31 - whole, 0
    for _ in range(24):
        rest = rest * rest >> 31
        places, rest = places << 1 | rest >> 32, rest >> (rest >> 32)
    return whole << 24 | places


ROOTS = [int(2**32 / Decimal(2) ** (1 / Decimal(2) ** place)) for place in range(1, 25)]


def weight(rank: int, skew: int) -> int:
    """Of a rank from 1: 2^40 divided by its power, made of roots of a half with 32 binary places."""
    whole, places = divmod(logarithm(rank) * skew // 100, 2**24)
    power = 2**32
    for place, root in enumerate(ROOTS):
        if places >> 23 - place & 1:
            power = power * root >> 32
    return min(max(power * 256 >> whole, 1), 2**40)


class Market:
    def __init__(self, plan: Plan) -> None:
        self.plan, self.draws = plan, Draws(plan.seed)
        self.sums = list(accumulate(weight(rank, plan.skew) for rank in range(1, plan.items + 1))) if plan.skew else []

    def user(self) -> int:
        return self.draws.below(self.plan.users)

    def category(self) -> int:
        return self.draws.below(self.plan.categories)

    def item(self) -> str:
        if self.sums:
            return self.plan.item(bisect_right(self.sums, self.draws.below(self.sums[-1], 64)))
        return self.plan.item(self.draws.below(self.plan.items))

    def facts(self, time: int) -> str:
        return f'{self.user()},{self.category()},"lot",{self.draws.between(1, 100, 64)},100000000,{time},1000000'

    def view(self) -> str:
        kind = self.draws.below(4)
        if kind < 2:
            return f"{('viewitem', 'viewbids')[kind]},{self.item()}"
        return f"viewcategory,{self.category()}" if kind == 2 else f"viewuser,{self.user()}"

    def request(self, time: int) -> str:
        plan, drawn = self.plan, self.draws.below(100)
        if drawn < plan.views:
            return self.view()
        if drawn < plan.views + plan.comments:
            return f"comment,{self.user()},{self.user()},{self.item()},{self.draws.between(-5, 5)}"
        if drawn < plan.views + plan.comments + plan.purchases:
            return f"buynow,{self.user()},{self.item()},1,{time}"
        if drawn < plan.views + plan.comments + plan.purchases + plan.new_items:
            return f"item,{self.facts(time)}"
        return f"bid,{self.user()},{self.item()},{self.draws.between(100, 1_000_000, 64)},{time}"

    def lines(self) -> Iterator[str]:
        workers, items = self.plan.workers, self.plan.items
        for place in range(items):
            yield f"{place % workers},+item,{self.facts(place)}\n"
        for index in range(self.plan.requests):
            yield f"{index % workers},{self.request(items + index)}\n"


def load_of(plan: Plan) -> bytes:
    return "".join(Market(plan).lines()).encode()
