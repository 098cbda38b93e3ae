"""The cases of a seed in numbered batches: a number of a seed has the same cases each time."""

import random
from functools import cache
from typing import NamedTuple

import short_inputs
from generators import common_case, damaged_case, hampered, lent, limit_case, listed_limits

# The sources, and how many cases a batch of each has.
SIZES = {"short": 1_000, "listed": 100, "limits": 50, "common": 500, "damaged": 500}
# They take turns.
CYCLE = ("short", "listed", "damaged", "short", "listed", "common", "short", "listed", "limits",
         "short", "listed", "damaged", "short", "listed", "common", "short", "short")
LISTED = cache(listed_limits)
# How many cases there are of those that come to an end.
ENDS = {"short": lambda: short_inputs.TOTAL, "listed": lambda: 2 * len(LISTED())}
CHANCE = {"limits": limit_case, "common": common_case, "damaged": damaged_case}


def listed(rng, i):
    """Each of the listed limits comes as it is and hampered."""
    name, given = LISTED()[i // 2]
    given = lent(rng, name, given)
    return name, hampered(rng, name, given) if i % 2 else given


class Batch(NamedTuple):
    source: str
    cases: list


class Batches:
    """Those of a seed; `sources` may leave some out."""

    def __init__(self, seed, sources=tuple(SIZES)):
        self.seed = seed
        self.cycle = [source for source in CYCLE if source in sources]
        self.order = short_inputs.Order(seed)

    def places(self, number):
        """The source of a batch and which of its cases, as far as there are any."""
        turn, place = divmod(number, len(self.cycle))
        source = self.cycle[place]
        nth = turn * self.cycle.count(source) + self.cycle[:place].count(source)
        start, end = nth * SIZES[source], (nth + 1) * SIZES[source]
        return source, range(start, min(end, ENDS[source]()) if source in ENDS else end)

    def batch(self, number):
        source, places = self.places(number)
        if source == "short":
            return Batch(source, [self.order.case(i) for i in places])
        rng = random.Random(f"{source} {self.seed} {places.start}")
        if source == "listed":
            return Batch(source, [listed(rng, i) for i in places])
        return Batch(source, [CHANCE[source](rng) for _ in places])
