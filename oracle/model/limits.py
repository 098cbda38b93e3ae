"""What the stored lists, but for those of the draws, must show, as named conditions on a stored
case.

store.py picks the cases so that each condition is met; test_model.py looks for each of them in the
lists as they are stored.
"""

import math
from collections import Counter
from itertools import accumulate
from typing import NamedTuple

from model import (MAX_COUNT, MAX_FANOUT, MAX_LIST, MAX_SEATS, MAX_TRIES, SEED_BYTES, WORD_END,
                   Refused, Words, bits_of, children_needed, counted_weights, fa1_fixed,
                   list_shuffle, nodes_needed, pieces_needed, zero_positions)

TOP = WORD_END - 1
HALF = 2**63
PIECE_ROOMS = ("room_bins", "room_validators", "room_stakes")
ACCEPTED_MAX_SAMPLES = (1.0, 1.5, 2.0, 2.5, 5e-324, math.inf)
REFUSED_MAX_SAMPLES = (math.nan, 0.0, -0.0, -1.0, -math.inf)


def word_lists(given):
    """What the names of a case's lists of words end with."""
    return [which for which in ("", "2") if "words" + which in given]


class Stored(NamedTuple):
    """What is given, and what is answered: the refusal's number, or 0 and the answer's fields."""

    given: dict
    refusal: int
    answer: dict

    @property
    def accepted(self):
        return self.refusal == 0

    @property
    def stakes(self):
        return self.given["stakes"]

    @property
    def n(self):
        return len(self.stakes)

    @property
    def total(self):
        return sum(self.stakes)

    @property
    def k(self):
        """The seats asked for; a partition has one for each bin."""
        return self.given.get("k", self.given.get("bins", 1))

    @property
    def highest_count(self):
        return max(self.given["counts"][:self.n], default=0)

    def past_end(self, which=""):
        return self.given["cursor" + which] > len(self.given["words" + which])

    def words(self, which=""):
        """The words from the cursor on."""
        return self.given["words" + which][self.given["cursor" + which]:]

    @property
    def draws(self):
        """The words that the tries or seats of an accepted call need where none is skipped."""
        if "tries" in self.answer:
            return 2 * self.answer["tries"]
        return self.answer.get("further", self.k)

    # ---- Over bins ----

    @property
    def swaps(self):
        """The words that the shuffle of an accepted call needs where none is skipped."""
        return self.n - 1 if self.draws > 0 else 0

    @property
    def order(self):
        """The shuffled list; none where its words run out."""
        try:
            return list_shuffle(range(self.n), Words(self.words()))
        except Refused:
            return None

    @property
    def kept(self):
        """What is left to draw from."""
        return fa1_fixed(self.stakes, self.k)[2] if "further" in self.answer else self.stakes

    @property
    def drawn(self):
        """The seats that are not fixed."""
        return self.answer["seats"][self.k - self.draws:]

    @property
    def bins(self):
        """The pieces of each bin."""
        bins = [[] for _ in range(self.draws)]
        for current, piece in zip(self.answer["piece_bins"], self.answer["piece_stakes"]):
            bins[current].append(piece)
        return bins

    @property
    def values(self):
        """What is drawn of each bin, where no word is skipped."""
        if self.answer["read2"] > self.draws:
            return []
        return [word % sum(pieces) for word, pieces in zip(self.words("2"), self.bins)]

    # ---- Of the shuffle ----

    @property
    def zeros(self):
        """The positions that count as zeros."""
        return zero_positions(counted_weights(self.stakes))

    @property
    def overflowing(self):
        """The positions of the weights that would take the sum past 2^64 - 1."""
        return [p for p in self.zeros if self.stakes[p] > 0]

    @property
    def first_value(self):
        """The value drawn first, where no word is skipped."""
        return self.words()[0] % sum(counted_weights(self.stakes))

    # ---- Of a view ----

    @property
    def fanout(self):
        return self.given["fanout"]

    @property
    def own(self):
        return self.given["own"]

    @property
    def position(self):
        """The own validator's position in the order of an accepted view."""
        return self.answer["order"].index(self.own)

    @property
    def children(self):
        return len(self.answer["children"])


def refused(number, holds=lambda c: True):
    return lambda c: c.refusal == number and holds(c)


def accepted(holds):
    return refused(0, holds)


# ---- Every sampler ----

def lengths(*numbers):
    return {f"{n} validators": accepted(lambda c, n=n: c.n == n) for n in numbers}


ZEROS = {
    "a zero first": accepted(lambda c: c.n > 0 and c.stakes[0] == 0),
    "a zero last": accepted(lambda c: c.n > 0 and c.stakes[-1] == 0),
    "a zero in the middle": accepted(
        lambda c: 0 in c.stakes[1:-1] and c.stakes[0] > 0 and c.stakes[-1] > 0),
}

LISTS = {
    "one validator": accepted(lambda c: c.n == 1),
    "no validator": refused(1, lambda c: c.n == 0),
    "a sum of 2^64 - 1": accepted(lambda c: c.total == TOP),
    "a sum of 2^64": refused(8, lambda c: c.total == TOP + 1),
    "no stake": refused(9),
    **ZEROS,
}

LONGEST_LISTS = {
    "4,096 validators": accepted(lambda c: c.n == MAX_LIST),
    "4,097 validators": refused(1, lambda c: c.n == MAX_LIST + 1),
}

ZERO_DRAWN = {
    "nothing left of the first, where 0 is drawn": accepted(
        lambda c: c.kept[0] == 0 and c.answer["read"] == c.draws > 0
        and c.words()[0] % sum(c.kept) == 0),
}

# Lists for which a call takes more scratch space.
SCRATCH = lengths(64, 65, 512, 513, 2_048, 2_049)
BIN_SCRATCH = lengths(64, 65, 1_024, 1_025)


def word_limits(which="", needed=lambda c: c.draws, dry=lambda c: True):
    """What a list of words must show. `needed` are the words that an accepted call needs of it
    where none is skipped; `dry` says of a call refused by 12 that this list ran out."""
    def read(c):
        return c.answer["read" + which]

    def ran_out(holds):
        return refused(12, lambda c: dry(c) and holds(c))

    limits = {
        "a skipped word": accepted(lambda c: read(c) > needed(c)),
        "only skipped words": ran_out(lambda c: set(c.words(which)) == {TOP}),
        "no word": ran_out(lambda c: not c.words(which) and not c.past_end(which)),
        "no word from past the end": ran_out(lambda c: c.past_end(which)),
        "no word from 2^64 - 1 on": ran_out(lambda c: c.given["cursor" + which] == TOP),
        "the last word read": accepted(lambda c: 0 < len(c.words(which)) == read(c)),
        "a word left": accepted(lambda c: len(c.words(which)) > read(c) > 0),
        **{f"words from {cursor} on": accepted(
            lambda c, cursor=cursor: c.given["cursor" + which] == cursor and read(c) > 0)
           for cursor in (0, 1, 3)},
    }
    return {f"second list: {name}" if which else name: holds for name, holds in limits.items()}


WORDS = word_limits()

NO_SEATS = {"0 seats": accepted(lambda c: c.k == 0)}

MOST_SEATS = {
    "4,096 validators, 1,024 seats": accepted(lambda c: c.n == MAX_LIST and c.k == MAX_SEATS),
}

COMMITTEES = {
    **{f"{k} seats": accepted(lambda c, k=k: c.k == k) for k in (1, 64, 65, MAX_SEATS)},
    "1,025 seats": refused(2, lambda c: c.k == MAX_SEATS + 1),
    **{f"room for {more} seats more": accepted(
        lambda c, more=more: c.given["room"] == c.k + more > more) for more in range(4)},
    "a seat too little room": refused(7, lambda c: c.given["room"] == c.k - 1),
    "little room and a sum past 2^64 - 1": refused(
        7, lambda c: c.given["room"] < c.k and c.total > TOP),
    "little room and no stake": refused(7, lambda c: c.given["room"] < c.k and c.total == 0),
    "little room and no validator": refused(1, lambda c: c.given["room"] < c.k),
    "little room and 1,025 seats": refused(2, lambda c: c.given["room"] < c.k),
    "no word needed from past the end": accepted(lambda c: c.past_end()),
}


def words_end(reads, which="", **fields):
    """Words that end at every place of a call that reads so many, and with the last."""
    def is_call(c):
        return all(c.given[name][:len(value)] == value if name == "counts"
                   else c.given[name] == value for name, value in fields.items())

    name = f"words{which} end after {{}} of {reads}".format
    ends = {name(n): refused(
        12, lambda c, n=n: is_call(c) and len(c.words(which)) == n and not c.past_end(which))
        for n in range(reads)}
    return {**ends, name(reads): accepted(
        lambda c: is_call(c) and c.answer["read" + which] == len(c.words(which)) == reads)}


# ---- The decaying sampler ----

def last_try(seats, name):
    """The last allowed try of the first or second seat; one validator, so that none is skipped."""
    before = 2 * (seats - 1)

    def words_for_tries(c, tries):
        return c.stakes == [1] and c.k == seats and len(c.words()) == before + 2 * tries

    return {
        f"last try of {name} accepted": accepted(
            lambda c: c.stakes == [1] and c.k == seats and c.given["allowed"] > 1
            and c.answer["tries"] == seats - 1 + c.given["allowed"]),
        f"last try of {name} rejected, no word left": refused(
            13, lambda c: words_for_tries(c, c.given["allowed"])),
        f"last try of {name} rejected, words left": refused(
            13, lambda c: words_for_tries(c, c.given["allowed"] + 1)),
        f"last try of {name} without a fraction": refused(
            12, lambda c: words_for_tries(c, c.given["allowed"] - 0.5)),
        f"last try of {name} without a draw": refused(
            12, lambda c: c.given["allowed"] > 1 and words_for_tries(c, c.given["allowed"] - 1)),
    }


DECAYING = {
    "fewer counts than stakes": refused(7, lambda c: len(c.given["counts"]) == c.n - 1),
    "fewer counts and a sum past 2^64 - 1": refused(
        7, lambda c: len(c.given["counts"]) < c.n and c.total > TOP),
    "more counts than stakes": accepted(lambda c: MAX_COUNT in c.given["counts"][c.n:]),
    "a count at the limit": accepted(lambda c: c.highest_count == MAX_COUNT - c.k < MAX_COUNT),
    "a count past the limit": refused(10, lambda c: c.highest_count == MAX_COUNT - c.k + 1),
    "no try allowed and max_samples": refused(
        3, lambda c: c.given["max_samples"] in map(bits_of, REFUSED_MAX_SAMPLES)),
    "max_samples and fewer counts": refused(4, lambda c: len(c.given["counts"]) < c.n),
    "a sum past 2^64 - 1 and a count": refused(8, lambda c: c.highest_count > MAX_COUNT - c.k),
    "no stake and a count": refused(9, lambda c: c.highest_count > MAX_COUNT - c.k),
    "a count and no word": refused(10, lambda c: not c.words()),
    "no try allowed": refused(3, lambda c: c.given["allowed"] == 0),
    "100,001 tries allowed": refused(3, lambda c: c.given["allowed"] == MAX_TRIES + 1),
    **{f"{allowed} tries allowed": accepted(
        lambda c, allowed=allowed: c.k > 0 and c.given["allowed"] == allowed)
       for allowed in (1, 2, MAX_TRIES)},
    **{f"max_samples {value}": accepted(
        lambda c, bits=bits_of(value): c.k > 0 and c.given["max_samples"] == bits)
       for value in ACCEPTED_MAX_SAMPLES},
    **{f"max_samples {value}": refused(
        4, lambda c, bits=bits_of(value): c.given["max_samples"] == bits)
       for value in REFUSED_MAX_SAMPLES},
    "a try rejected": accepted(lambda c: c.answer["tries"] > c.k),
}

REJECTIONS = {
    "tries rejected at several seats": accepted(
        lambda c: 2 < c.k < 100 and c.answer["tries"] > c.k + 5),
    "the highest count, where no seat is asked for": accepted(
        lambda c: c.k == 0 and c.highest_count == MAX_COUNT),
}

RESET = {
    "no count": lambda c: c.given["counts"] == [],
    "one count": lambda c: len(c.given["counts"]) == 1,
    "4,096 counts": lambda c: len(c.given["counts"]) == MAX_LIST,
    "the highest count": lambda c: MAX_COUNT in c.given["counts"],
}

# ---- Over bins ----

def pieces(c):
    """Bin and validator of each piece."""
    return list(zip(c.answer["piece_bins"], c.answer["piece_validators"]))


def most_of_one(items):
    """How often the most frequent one stands there."""
    return max(Counter(items).values(), default=0)


def piece_places(c):
    """How many places more than needed each buffer for pieces has."""
    return [c.given[name] - pieces_needed(c.stakes, c.k) for name in PIECE_ROOMS]


def short_last_bin(holds):
    """A call whose last bin holds less than the others; `holds` speaks of what it holds."""
    return accepted(lambda c: c.draws > 1 and sum(c.bins[-1]) < sum(c.bins[0])
                    and holds(c, sum(c.bins[-1])))


def value_drawn(of_first):
    """A value of a bin with several pieces, by the first of them."""
    return accepted(lambda c: any(len(held) > 1 and value == of_first(held[0])
                                  for value, held in zip(c.values, c.bins)))


PIECE_PLACES = {
    **{f"a place too few: {name}": refused(
        7, lambda c, short=[-(other == name) for other in PIECE_ROOMS]:
            c.given["room"] >= c.k and [min(more, 0) for more in piece_places(c)] == short)
       for name in PIECE_ROOMS},
    "no place more than needed": accepted(lambda c: c.k > 0 and piece_places(c) == [0, 0, 0]),
    "many places more than needed": accepted(lambda c: min(piece_places(c)) > 20),
    "few places for pieces and a sum past 2^64 - 1": refused(
        7, lambda c: min(piece_places(c)) < 0 and c.total > TOP),
    "few places for pieces and no stake": refused(
        7, lambda c: min(piece_places(c)) < 0 and c.total == 0),
    "few places for pieces and no validator": refused(1, lambda c: min(piece_places(c)) < 0),
    "few places for pieces and 1,025 seats": refused(2, lambda c: min(piece_places(c)) < 0),
}

BINS = {
    **word_limits("", lambda c: c.swaps, lambda c: c.order is None),
    **word_limits("2", lambda c: c.draws, lambda c: c.order is not None),
    "words skipped to the end of the shuffle": refused(
        12, lambda c: c.order is None and len(c.words()) >= c.n - 1),
    "an empty bin": refused(11),
    "an empty bin and no word": refused(11, lambda c: not c.words() and not c.words("2")),
    "one bin": accepted(lambda c: c.draws == 1 and c.n > 1),
    "a stake that ends with its bin": accepted(
        lambda c: any(a[0] != b[0] and a[1] != b[1] for a, b in zip(pieces(c), pieces(c)[1:]))),
    "a stake in two bins": accepted(lambda c: most_of_one(c.answer["piece_validators"]) == 2),
    "as many pieces as there can be": accepted(
        lambda c: c.n > 1 and c.draws > 1 and len(pieces(c)) == c.n + c.draws - 1),
    "a zero first in the shuffled order": accepted(
        lambda c: c.draws > 0 and c.kept[c.order[0]] == 0),
    "a zero last in the shuffled order, all bins full": accepted(
        lambda c: c.draws > 1 and c.kept[c.order[-1]] == 0
        and sum(c.bins[0]) == sum(c.bins[-1])),
    "the value that a running sum reaches": value_drawn(lambda first: first),
    "the value below a running sum": value_drawn(lambda first: first - 1),
    "the highest value of a short last bin": short_last_bin(
        lambda c, held: held > 1 and c.values and c.values[-1] == held - 1),
    "a word that the capacity would not take there": short_last_bin(
        lambda c, held: c.words("2")[c.answer["read2"] - 1] % sum(c.bins[0]) >= held),
}

PARTITION = {
    **{f"{total} in {bins} bins": refused(
        11, lambda c, total=total, bins=bins: (c.total, c.k) == (total, bins))
       for total, bins in ((5, 4), (4, 3), (6, 4))},
    **{f"{total} in {bins} bins": accepted(
        lambda c, total=total, bins=bins: (c.total, c.k) == (total, bins))
       for total, bins in ((5, 3), (7, 4))},
    "3, 0, 4 in 2 bins": accepted(lambda c: (c.stakes, c.k) == ([3, 0, 4], 2)),
    "2^64 - 1 in several bins": accepted(lambda c: c.total == TOP and c.k > 1),
    "a stake over several bins": accepted(
        lambda c: c.n > 1 and most_of_one(c.answer["piece_validators"]) > 2),
    **{f"no bins: {number}": refused(number, lambda c: c.k == 0) for number in (1, 8, 9)},
    "no bins, no place for pieces": accepted(
        lambda c: c.k == 0 and piece_places(c) == [0, 0, 0]),
    "no bins, words": accepted(lambda c: c.k == 0 and c.words() and c.words("2")),
    "few places for pieces and an empty bin": refused(
        7, lambda c: min(piece_places(c)) < 0 and (c.total, c.k) in ((5, 4), (4, 3), (6, 4))),
}


# ---- FA1 ----

def f64_errors(c):
    """By how much the floor of a product rounded as f64 differs from each's fixed seats."""
    return [math.floor(float(s) / float(c.total) * c.k) - s * c.k // c.total for s in c.stakes]


NAMED_LISTS = {
    "49 stakes of 1": ([1] * 49, 49),
    "15, 7": ([15, 7], 22),
    "a product that is rounded up": ([10679670600444, 2426574706391], 956),
    "2^63 alone": ([HALF], 2),
    "2^63, 2^62": ([HALF, HALF // 2], 4),
    "5, 3, 2": ([5, 3, 2], 4),
    "a seat that the stake does not cover": ([2**60 - 1, 3 * 2**59, 3 * 2**59, 1], 4),
}

FA1 = {
    **{name: accepted(lambda c, stakes=stakes, k=k: (c.stakes, c.k) == (stakes, k))
       for name, (stakes, k) in NAMED_LISTS.items()},
    "no seat": refused(2, lambda c: c.k == 0),
    "no seat and no validator": refused(1, lambda c: c.k == 0),
    "no seat and no stake": refused(2, lambda c: c.k == 0 and c.total == 0),
    "no further seat": accepted(lambda c: c.draws == 0 and c.n > 1),
    "no further seat and no word": accepted(
        lambda c: c.draws == 0 and not c.words() and not c.words("2")),
    **{f"{k} further seats": accepted(lambda c, k=k: c.draws == k) for k in (1, 64, 65)},
    "no fixed seat": accepted(lambda c: c.draws == c.k > 1),
    "a stake of exactly T / k": accepted(
        lambda c: c.draws > 0 and any(s * c.k == c.total for s in c.stakes)),
    "a stake just below T / k": accepted(
        lambda c: any(0 < c.total - s * c.k < c.k for s in c.stakes)),
    "two drawn seats": accepted(lambda c: most_of_one(c.drawn) == 2),
    "fixed seats and a drawn one": accepted(
        lambda c: set(c.drawn) & set(c.answer["seats"][:c.k - c.draws])),
    **{f"products rounded {way}, total about {name}": accepted(
        lambda c, sign=sign, least=least, most=most:
            least < c.total <= most and sign in f64_errors(c))
       for way, sign in (("up", 1), ("down", -1))
       for name, least, most in (("2^54", 2**53, 2**55), ("2^64", TOP - 2**20, TOP))},
}

FA1_BINS = {
    "few places for pieces, and none would be made": refused(
        7, lambda c: c.given["room"] >= c.k and 0 < c.total <= TOP
        and fa1_fixed(c.stakes, c.k)[1] == 0),
}

PLAIN_DRAWS = {
    "no place for pieces": accepted(lambda c: all(c.given[name] == 0 for name in PIECE_ROOMS)),
    "places for pieces": accepted(lambda c: min(piece_places(c)) >= 0),
    "a second list": accepted(lambda c: c.words("2") and c.draws > 0),
    "a second list from past the end": accepted(lambda c: c.past_end("2") and c.draws > 0),
}

# ---- The shuffle ----

COUNTS = (0, 1, 2, 15, 16, 17, 255, 256, 257, 272, 273, MAX_LIST - 1, MAX_LIST)

SIZES = {f"{n} weights": accepted(lambda c, n=n: c.given["count"] == n)
         for n in (*COUNTS, MAX_LIST + 1, 2**16)}


def takes_to(total):
    """A weight that takes the sum of those before to this total."""
    return accepted(lambda c: any(
        0 < before == total - weight for before, weight in
        zip(accumulate(counted_weights(c.stakes), initial=0), c.stakes)))


WEIGHTS = {
    **{f"{n} weights": accepted(lambda c, n=n: c.n == n) for n in COUNTS},
    "4,097 weights": refused(1, lambda c: c.n == MAX_LIST + 1 <= c.given["room"]),
    "4,097 weights and little room": refused(1, lambda c: c.n == MAX_LIST + 1 > c.given["room"]),
    **ZEROS,
    **{f"{n} zeros": accepted(lambda c, n=n: c.stakes == [0] * n) for n in (1, 3, 17)},
    **{f"{n} equal weights": accepted(
        lambda c, n=n: c.n == n and c.stakes[0] > 0 and len(set(c.stakes)) == 1)
       for n in (2, 16, 17, 33)},
    "2^64 - 1 alone": accepted(lambda c: c.stakes == [TOP]),
    **{f"{n} weights with the sum 2^64 - 1": accepted(
        lambda c, n=n: c.n == n and c.total == TOP and 0 not in c.stakes)
       for n in (2, 16, 17, 257)},
    "a weight that takes the sum to 2^64 - 1": takes_to(TOP),
    "a weight that takes the sum to 2^64": takes_to(TOP + 1),
    "the second weight overflows": accepted(lambda c: c.n > 2 and c.overflowing == [1]),
    "a weight in the middle overflows": accepted(
        lambda c: len(c.overflowing) == 1 and 1 < c.overflowing[0] < c.n - 1),
    "the last weight overflows": accepted(lambda c: c.n > 2 and c.overflowing == [c.n - 1]),
    "weights of several nodes overflow": accepted(
        lambda c: len({p // 16 for p in c.overflowing}) > 1),
    "every weight but the first overflows": accepted(
        lambda c: c.n > 2 and c.overflowing == list(range(1, c.n))),
    "a weight that counts, after one that overflows": accepted(
        lambda c: c.overflowing and any(counted_weights(c.stakes)[c.overflowing[0]:])),
    "a weight that overflows, between zeros": accepted(
        lambda c: any(c.stakes[p - 1:p + 2:2] == [0, 0] for p in c.overflowing)),
}


def lent_places(name, needed):
    """A buffer with as many places as needed, more, and one too few."""
    def places(c):
        return c.given[name] - needed(c)

    return {
        **{f"{name}: {more} more": accepted(lambda c, more=more: places(c) == more and c.n > 0)
           for more in (0, 2)},
        f"{name}: one too few": refused(7, lambda c: places(c) == -1),
        f"{name}: none needed": accepted(lambda c: c.given[name] == c.n == 0),
    }


BEGIN = {
    "the zeros of 2^64 - 1, 1, 0": accepted(
        lambda c: c.stakes == [TOP, 1, 0] and c.answer["zeros"] == [1, 2]),
    **lent_places("room", lambda c: c.n),
    **lent_places("room_nodes", lambda c: nodes_needed(c.stakes)),
    **{f"a node too few for {n} weights": refused(
        7, lambda c, n=n: c.n == n and c.given["room_nodes"] == nodes_needed(c.stakes) - 1)
       for n in (1, 17, 257)},
}

FIVE_STAKES = [2, 0, 3, 1, 5]

SHUFFLE = {
    **lent_places("room", lambda c: c.n),
    "little room and no word": refused(7, lambda c: not c.words()),
    **word_limits(needed=lambda c: c.n),
    "no word needed from past the end": accepted(lambda c: c.past_end()),
    "a word skipped, no zero": accepted(lambda c: not c.zeros and c.answer["read"] > c.n),
    "a word skipped, only zeros": accepted(lambda c: c.total == 0 and c.answer["read"] > c.n),
    **words_end(5, stakes=FIVE_STAKES),
    **words_end(6, stakes=[0, 3, 0, 0, 4, 1]),
    **words_end(3, stakes=[0, 0, 0]),
    **words_end(4, stakes=[TOP - 1, 2, 1, 1]),
    "a zero first, where 0 is drawn": accepted(
        lambda c: c.total > 0 and c.stakes[0] == c.first_value == 0),
    **{f"the value {name} a running sum": accepted(
        lambda c, less=less: c.n > 1 and not c.zeros and c.first_value == c.stakes[0] - less)
       for name, less in (("that reaches", 0), ("below", 1))},
    "the highest value": accepted(
        lambda c: c.n > 2 and not c.zeros and c.first_value == c.total - 1),
    "a zero that moved into the gap": accepted(
        lambda c: c.n > 2 and c.total == 0 and c.answer["order"][:2] == [0, c.n - 1]),
}

# ---- Views, seeds and relays ----

# Lists of which the views of all validators are stored, and with which fanouts.
SMALL_LISTS = (([0], (1, 200)), ([1], (1, 2, 200)), ([2, 0, 3], (1, 2, 3, 4)), ([0] * 4, (2,)),
               ([1, 2, 0, 1], (1, 2, 3)), ([1, 2, 0, 1, 2], (2, 3)),
               ([1, 2, 0, 1, 2, 0], (1, 2, 3, 5, 6, 7)), ([TOP, 1, 0], (2,)),
               ([TOP - 1, 2, 1, 1], (1, 2)))


def is_view(c, stakes, fanout, own):
    words_are = c.words()[:3] == [4, 1, 0] or stakes != [2, 0, 3]
    return (c.stakes, c.fanout, c.own) == (stakes, fanout, own) and words_are


SMALL_VIEWS = {
    f"{own} of {stakes}, fanout {fanout}": accepted(
        lambda c, view=(stakes, fanout, own): is_view(c, *view))
    for stakes, fanouts in SMALL_LISTS for fanout in fanouts for own in range(len(stakes))
}

POSITIONS = {
    "the root with all its children": accepted(
        lambda c: c.position == 0 and c.children == c.fanout > 1),
    "the root, a child missing": accepted(
        lambda c: c.position == 0 and c.children == c.fanout - 1 > 0),
    "a parent that is not the root, with all its children": accepted(
        lambda c: c.position > 1 and c.children == c.fanout > 1),
    "the last parent, its last child missing": accepted(
        lambda c: c.position > 0 and c.children == c.fanout - 1 > 0),
    "the last parent with one child of several": accepted(
        lambda c: c.position > 0 and c.children == 1 < c.fanout - 1),
    "the last parent with all its children": accepted(
        lambda c: c.position > 0 and c.position * c.fanout + c.fanout == c.n - 1 and c.fanout > 1),
    "the leaf after the last parent": accepted(
        lambda c: c.children == 0 and 1 < c.position == (c.n - 2) // c.fanout + 1 < c.n - 1),
    "the last leaf": accepted(lambda c: c.children == 0 and 1 < c.position == c.n - 1),
    "the first child of a parent that is not the root": accepted(
        lambda c: c.position > c.fanout > 1 and c.position % c.fanout == 1),
    "the last child of a parent": accepted(
        lambda c: c.position > c.fanout > 1 and c.position % c.fanout == 0),
    "children that stand before their parent in the list": accepted(
        lambda c: c.children > 1 and max(c.answer["children"]) < c.own),
    "a root that is not the first of the list": accepted(lambda c: c.answer["root"] > 0),
    "a parent with the id 0": accepted(
        lambda c: c.answer["has_parent"] == 1 and c.answer["parent"] == 0),
    "a zero with children": accepted(lambda c: c.own in c.zeros and c.children > 0 < c.position),
}

VIEWS = {
    **lengths(1, 2, 15, 16, 17, 33, 255, 256, 257, MAX_LIST),
    **{f"fanout {fanout}": accepted(
        lambda c, fanout=fanout: c.fanout == fanout and c.children > 0)
       for fanout in (1, 2, 3, 16, 200, MAX_FANOUT)},
    **{f"fanout {name} n": accepted(lambda c, more=more: c.n > 2 and c.fanout == c.n + more)
       for name, more in (("just below", -1), ("of", 0), ("just above", 1))},
    **{f"{n} validators, fanout {fanout}, {name}": accepted(
        lambda c, n=n, fanout=fanout, holds=holds: (c.n, c.fanout) == (n, fanout) and holds(c))
       for n, fanout, name, holds in (
           (257, 16, "an inner one", lambda c: c.position > 0 < c.children),
           (257, 200, "the last parent", lambda c: c.position == 1),
           (256, 16, "the last parent", lambda c: 0 < c.children < 16),
           (MAX_LIST, 200, "the last parent", lambda c: 0 < c.children < 200),
           (MAX_LIST, MAX_FANOUT, "the root", lambda c: c.children == MAX_LIST - 1))},
    **ZEROS,
    **{f"{n} zeros": accepted(lambda c, n=n: c.stakes == [0] * n) for n in (1, 4)},
    "a weight overflows": accepted(lambda c: c.overflowing),
    **SMALL_VIEWS,
    **POSITIONS,
}

VIEW_WORDS = {
    **word_limits(needed=lambda c: c.n),
    "a word skipped, only zeros": accepted(lambda c: c.total == 0 and c.answer["read"] > c.n),
    **words_end(5, stakes=FIVE_STAKES),
    **words_end(6, stakes=[0, 3, 0, 0, 4, 1]),
    **words_end(3, stakes=[0, 0, 0]),
    **words_end(4, stakes=[TOP - 1, 2, 1, 1]),
}


def places_more(c):
    """How many places more than needed the order, the nodes and the children have."""
    return [c.given["room"] - c.n, c.given["room_nodes"] - nodes_needed(c.stakes),
            c.given["room_children"] - children_needed(c.stakes, c.fanout)]


def one_short(short, holds=lambda c: True):
    """A view that only this one of the three buffers turns down, by one place."""
    return refused(7, lambda c: [min(more, 0) for more in places_more(c)]
                   == [-(i == short) for i in range(3)] and holds(c))


VIEW_PLACES = {
    **{f"{name}: none more than needed": accepted(lambda c, i=i: c.n > 1 and places_more(c)[i] == 0)
       for i, name in enumerate(("order", "nodes", "children"))},
    **{f"{name}: more than needed": accepted(lambda c, i=i: places_more(c)[i] > 1)
       for i, name in enumerate(("order", "nodes", "children"))},
    **{f"{name}: one too few": one_short(i)
       for i, name in enumerate(("order", "nodes", "children"))},
    **{f"a node too few for {n} validators": one_short(1, lambda c, n=n: c.n == n)
       for n in (1, 17, 257)},
    "a child too few, where the fanout is smaller": one_short(2, lambda c: c.fanout < c.n),
    "a child too few, where the list is smaller": one_short(2, lambda c: c.n < c.fanout),
    "more places for children than validators": accepted(lambda c: c.given["room_children"] > c.n),
    "many places more than needed": accepted(lambda c: min(places_more(c)) > 2),
}

VIEW_REFUSALS = {
    "no validator": refused(1, lambda c: c.n == 0 < c.fanout <= MAX_FANOUT),
    "4,097 validators": refused(1, lambda c: c.n == MAX_LIST + 1 > c.own and c.fanout > 0),
    "no validator and no fanout": refused(1, lambda c: c.fanout == 0),
    "4,097 validators and no fanout": refused(1, lambda c: c.n == MAX_LIST + 1 and c.fanout == 0),
    **{f"fanout {fanout}": refused(
        5, lambda c, fanout=fanout: c.fanout == fanout and c.own < c.n)
       for fanout in (0, MAX_FANOUT + 1)},
    "no fanout and an own id past the list": refused(5, lambda c: c.fanout == 0 and c.own >= c.n),
    "the highest fanout": refused(5, lambda c: c.fanout == TOP),
    **{f"own id {name}": refused(6, lambda c, own=own: c.own == own(c))
       for name, own in (("n", lambda c: c.n), ("n + 1", lambda c: c.n + 1),
                         ("2^64 - 1", lambda c: TOP))},
    "own id n and no word": refused(6, lambda c: not c.words()),
    "own id n and little room": refused(6, lambda c: min(places_more(c)) < 0),
    "no fanout and little room": refused(5, lambda c: min(places_more(c)) < 0),
    "little room and no word": refused(7, lambda c: not c.words()),
}


def seeds(second):
    """`second` is the number after the slot."""
    return {
        **{f"{name} 2^64 - 1": accepted(lambda c, name=name: c.given[name] == TOP)
           for name in ("slot", second)},
        **{f"byte {i} of the {name}": accepted(
            lambda c, name=name, number=1 << 8 * i: c.given[name] == number)
           for name in ("slot", second) for i in range(8)},
        "numbers that differ": accepted(lambda c: 0 != c.given["slot"] != c.given[second] != 0),
        **{f"{room} bytes": accepted(lambda c, room=room: c.given["room"] == room)
           for room in (SEED_BYTES, SEED_BYTES + 1, SEED_BYTES + 3)},
        **{f"{room} bytes": refused(7, lambda c, room=room: c.given["room"] == room)
           for room in (0, SEED_BYTES - 1)},
    }


def seats(c):
    return len(c.given["seats"])


def relay_at(number, position):
    """A relay at this of the positions of so many seats."""
    return accepted(lambda c: (seats(c), c.given["shred"]) == (number, position))


RELAYS = {
    **{f"seat {position} of {number}": relay_at(number, position)
       for number, position in ((1, 0), (3, 0), (3, 1), (3, 2), (64, 63), (65, 64), (200, 199),
                                (MAX_SEATS, 0), (MAX_SEATS, MAX_SEATS - 1))},
    "a seat that others have too": accepted(
        lambda c: c.given["seats"].count(c.answer["id"]) > 1 < len(set(c.given["seats"]))),
    "the highest id": accepted(lambda c: c.answer["id"] == TOP),
    "no seat": refused(6, lambda c: seats(c) == c.given["shred"] == 0),
    **{f"position {name}": refused(6, lambda c, at=at: seats(c) > 0 and c.given["shred"] == at(c))
       for name, at in (("k", lambda c: seats(c)), ("k + 1", lambda c: seats(c) + 1),
                        ("2^64 - 1", lambda c: TOP))},
    "position k of 1,024": refused(6, lambda c: seats(c) == c.given["shred"] == MAX_SEATS),
    "1,025 seats": refused(2, lambda c: seats(c) == MAX_SEATS + 1 > c.given["shred"]),
    "1,025 seats and position k": refused(2, lambda c: seats(c) == c.given["shred"]),
}

# The limits of each function, by the crate of the program that replays it. The longest lists are
# asked for once of FA1's two fallbacks.
LIMITS = {
    "stake_weighted_cases": {
        "sample": {**LISTS, **LONGEST_LISTS, **ZERO_DRAWN, **SCRATCH, **WORDS},
        "sample_quorum": {**LISTS, **LONGEST_LISTS, **ZERO_DRAWN, **SCRATCH, **WORDS, **NO_SEATS,
                          **COMMITTEES, **MOST_SEATS, **words_end(5, stakes=FIVE_STAKES, k=5)},
    },
    "decaying_acceptance_cases": {
        "sample_one": {**LISTS, **LONGEST_LISTS, **ZERO_DRAWN, **lengths(64, 65, 512, 513), **WORDS,
                       **DECAYING, **last_try(1, "the seat"),
                       **words_end(6, stakes=[1, 1], counts=[1, 0])},
        "sample_quorum": {**LISTS, **LONGEST_LISTS, **ZERO_DRAWN, **lengths(64, 65, 512, 513),
                          **WORDS, **NO_SEATS, **COMMITTEES, **MOST_SEATS, **DECAYING, **REJECTIONS,
                          **last_try(1, "the only seat"), **last_try(2, "the second seat"),
                          **words_end(10, stakes=[1, 1], k=3, counts=[1, 0])},
        "reset": RESET,
    },
    "partition_cases": {
        "sample_quorum": {**LISTS, **LONGEST_LISTS, **BIN_SCRATCH, **NO_SEATS, **COMMITTEES,
                          **MOST_SEATS, **PIECE_PLACES, **BINS, **PARTITION,
                          **words_end(4, stakes=FIVE_STAKES, bins=4),
                          **words_end(4, "2", stakes=FIVE_STAKES, bins=4)},
    },
    "fait_accompli_cases": {
        "partition_fallback": {**LISTS, **LONGEST_LISTS, **BIN_SCRATCH, **COMMITTEES, **MOST_SEATS,
                               **PIECE_PLACES, **BINS, **FA1, **FA1_BINS,
                               **words_end(4, stakes=FIVE_STAKES, k=4),
                               **words_end(2, "2", stakes=FIVE_STAKES, k=4)},
        "stake_weighted_fallback": {**LISTS, **ZERO_DRAWN, **BIN_SCRATCH, **WORDS, **COMMITTEES,
                                    **FA1, **PLAIN_DRAWS, **words_end(2, stakes=FIVE_STAKES, k=5)},
    },
    "weighted_shuffle_cases": {
        "get_num_nodes_and_tree_size": SIZES,
        "begin": {**WEIGHTS, **BEGIN},
        "shuffle": {**WEIGHTS, **SHUFFLE},
    },
    "turbine_cases": {
        "view": {**VIEWS, **VIEW_WORDS, **VIEW_PLACES, **VIEW_REFUSALS},
        "turbine_seed": seeds("shred"),
        "rotor_seed": seeds("slice"),
        "relay": RELAYS,
    },
}
