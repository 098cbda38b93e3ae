"""Short inputs of every entry, each once: lists of up to four stakes from 0 to 3, sizes up to 5,
words of a small alphabet.

The inputs of an entry are a product of choices, gone through in an order that a seed gives.
"""

import math
import random
from itertools import product
from typing import NamedTuple

from entries import ENTRIES, places_needed
from limits import HALF, TOP, word_lists
from model import MAX_COUNT, bits_of
from store import from_cursor

# 2^64 - 1 is skipped below all but powers of two; 2^64 - 4 is the first word that is skipped below
# 6 and 12.
ALPHABET = (0, 1, 2, HALF, TOP, TOP - 3)
# Words that follow where plenty are given.
PLENTY = [3, 1, 4, 1, 5, 9, 2, 6, 5, 3, 5, 8, 9, 7, 9, 3]


def sequences(letters, longest):
    """All lists of up to so many letters."""
    return [list(letter) for n in range(longest + 1) for letter in product(letters, repeat=n)]


def choices(name, values):
    return [{name: value} for value in values]


def supplies(longest, which="words"):
    """All short lists of words, alone and with plenty after them."""
    short = sequences(ALPHABET, longest)
    return choices(which, short + [words + PLENTY for words in short])


STAKES = choices("stakes", sequences(range(4), 4))
SIZES = range(6)
# Words by which four validators come in each order, fewer, and words that are skipped.
ORDERS = choices("words", [
    *map(list, product(range(2), range(3), range(4))), [], [0], [1], [0, 2], [TOP, 0, 1],
    [TOP, TOP, TOP, 2, 3], [1, TOP, 0, 0], [HALF, HALF, HALF]])
# Every kind of `max_samples`, of allowance and of counts; there are counts past the list too.
SETTINGS = [
    {"max_samples": bits_of(max_samples), "allowed": allowed, "counts": counts}
    for max_samples, allowed, counts in (
        (1.0, 100_000, [0, 0, 0, 0]), (2.0, 100_000, [1, 0, 1, 0]), (3.5, 100_000, [2, 1, 0, 3]),
        (1.5, 1, [1, 0, 0, 1]), (2.0, 2, [1, 0, 2, 0]),
        (math.inf, 100_000, [7, MAX_COUNT - 4, 0, MAX_COUNT]), (5e-324, 100_000, [0, 0, 1, 0]),
        (-0.0, 100_000, [0, 0, 1, 0]), (math.nan, 100_000, [0, 0, 1, 0]))]
POWERS_OF_TEN = [10**i for i in range(20)]
DIGITS = sorted({0, 5, TOP, *POWERS_OF_TEN, *(number - 1 for number in POWERS_OF_TEN)})
NUMBERS = [0, 1, 2, 3, 5, 7, 10, 255, 256, 2**32 - 1, 2**32, 2**32 + 1, HALF - 1, HALF, HALF + 1,
           TOP // 3, TOP // 2, TOP - 1, TOP]
WEIGHTS_COUNTED = [*range(4_200), HALF, TOP - 1, TOP,
                   *(16**i + more for i in range(4, 16) for more in (-1, 0, 1))]
SEED_ROOMS = choices("room", (0, 1, 31, 32, 33, 40))
DIGIT_ROOMS = choices("room", range(23))


def arithmetic(second):
    return [choices("stake", NUMBERS), choices(second, NUMBERS)]


def over_bins(size):
    return [STAKES, choices(size, SIZES), ORDERS, supplies(1, "words2")]


def plain_draws():
    return [STAKES, choices("k", SIZES), supplies(3)]


CHOICES = {
    "stake_weighted_sample": [STAKES, choices("words", sequences(ALPHABET, 3))],
    "iid_sample_quorum": plain_draws(),
    "decaying_acceptance_sample_one": [STAKES, SETTINGS, supplies(2)],
    "decaying_acceptance_sample_quorum": [STAKES, choices("k", SIZES), SETTINGS, supplies(2)],
    "decaying_acceptance_reset": [choices("counts", sequences((0, 1, 7, MAX_COUNT), 5))],
    "partition_sample_quorum": over_bins("bins"),
    "fait_accompli1_with_partition_fallback": over_bins("k"),
    "fait_accompli1_with_stake_weighted_fallback": plain_draws(),
    "get_num_nodes_and_tree_size": [choices("count", WEIGHTS_COUNTED)],
    "weighted_shuffle": [STAKES, choices("words", sequences(ALPHABET, 4))],
    "turbine_tree_new": [STAKES, choices("fanout", SIZES), choices("own", range(5)), supplies(2)],
    "turbine_seed": [choices("slot", NUMBERS), choices("shred", NUMBERS), SEED_ROOMS],
    "rotor_seed": [choices("slot", NUMBERS), choices("slice", NUMBERS), SEED_ROOMS],
    "sample_relay": [choices("seats", sequences((0, 3, TOP), 5)), choices("shred", range(7))],
    "stake_div_ceil": arithmetic("divisor"),
    "stake_checked_add": arithmetic("rhs"),
    "stake_sub": arithmetic("rhs"),
    "stake_mul": arithmetic("rhs"),
    "stake_sum": [STAKES + choices("stakes", sequences((0, 1, HALF - 1, HALF, TOP), 4))],
    "stake_fmt": [choices("stake", DIGITS), DIGIT_ROOMS],
    "validator_index_fmt": [choices("id", DIGITS), DIGIT_ROOMS],
}
assert CHOICES.keys() == ENTRIES.keys()

NUMBER = {name: math.prod(map(len, lists)) for name, lists in CHOICES.items()}
TOTAL = sum(NUMBER.values())


def lent(name, given, i):
    """With up to two words before the cursor, and as many places as are needed or two more."""
    for which in word_lists(given):
        given.update(from_cursor(given, which, i % 3))
    for j, (room, places) in enumerate(places_needed(name, given).items()):
        given.setdefault(room, places + (i // 3 + j) % 3)
    return name, given


def nth(name, i):
    """The case of this number."""
    given, rest = {}, i
    for options in CHOICES[name]:
        rest, which = divmod(rest, len(options))
        given.update(options[which])
    return lent(name, given, i)


# ---- The order ----

class Stretch(NamedTuple):
    """The entries that take turns in it, the first of the cases that each has there, and how many
    cases these are together."""

    names: list
    start: int
    cases: int


def stretches():
    """Entries take turns until each has no case left, so that a short run sees all of them."""
    start = 0
    for number in sorted(set(NUMBER.values())):
        names = [name for name in NUMBER if NUMBER[name] >= number]
        yield Stretch(names, start, len(names) * (number - start))
        start = number


STRETCHES = list(stretches())


def in_turn(i):
    """The entry whose turn it is, and which of its cases."""
    for names, start, cases in STRETCHES:
        if i < cases:
            return names[i % len(names)], start + i // len(names)
        i -= cases
    raise IndexError("no short input is left")


class Order:
    """The order in which a seed has the cases of each entry."""

    def __init__(self, seed):
        rng = random.Random(f"short {seed}")
        self.steps = {name: self.step(rng, number) for name, number in NUMBER.items()}

    @staticmethod
    def step(rng, number):
        """A step that meets every number once, and where to start."""
        while math.gcd(step := rng.randrange(1, number + 1), number) > 1:
            pass
        return step, rng.randrange(number)

    def case(self, i):
        name, place = in_turn(i)
        step, start = self.steps[name]
        return nth(name, (start + place * step) % NUMBER[name])
