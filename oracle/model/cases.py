#!/usr/bin/env python3
"""A fixed set of cases: `cases.py N` writes about N, the limits among them."""

import math
import random
import sys

from model import Words, bits_of, shuffle_order, write_fields

SEED = 20_250_101
TOP = 2**64 - 1
HALF = 2**63
MAX_COUNT = 2**32 - 1
GOLDEN = 11400714819323198485
LENGTHS = (0, 1, 2, 15, 16, 17, 255, 256, 257, 272, 273)
LONG_LENGTHS = (4_095, 4_096, 4_097)
SIZES = (0, 1, 2, 1_023, 1_024, 1_025)
FANOUTS = (0, 1, 2, 16, 200, 4_096, 4_097)
MAX_SAMPLES = (1.0, 1.5, 2.0, 2.5, 5e-324, math.inf, math.nan, 0.0, -0.0, -1.0, -math.inf)
ALLOWED = (0, 1, 2, 99_999, 100_000, 100_001)
DECAYING = {"max_samples": bits_of(2.0), "allowed": 100_000}
SLOWLY_DECAYING = {"max_samples": bits_of(4_096.0), "allowed": 100_000}


def case(operation, **fields):
    return write_fields(operation, fields)


# ---- Words ----

def one_word(rng):
    """Mostly any word; else small, just below the top, or at a half or quarter."""
    kind = rng.randrange(20)
    if kind == 0:
        return rng.randrange(20)
    if kind == 1:
        return TOP - rng.randrange(20)
    if kind == 2:
        return rng.choice([HALF, HALF - 1, HALF + 1, HALF // 2, HALF // 2 - 1])
    return rng.randrange(2**64)


def words(rng, need, total=1):
    """Mostly enough for `need` draws below `total` or less, and sometimes short."""
    if rng.randrange(8) == 0:
        return [one_word(rng) for _ in range(rng.randrange(need + 1))]
    spare = need + 6 if total > 2**62 else need // 16 + 2
    return [one_word(rng) for _ in range(need + spare)]


# ---- Stakes ----

def parts(rng, n, total):
    """n stakes with this sum."""
    cuts = sorted(rng.randrange(total + 1) for _ in range(n - 1))
    return [b - a for a, b in zip([0] + cuts, cuts + [total])]


def small_stakes(rng, n):
    return [rng.randrange(6) for _ in range(n)]


def equal_stakes(rng, n):
    return [rng.choice([1, 1, 2, 3, 7, 10**9, TOP // max(n, 1)])] * n


def realistic_stakes(rng, n):
    """Lamports, heavy-tailed."""
    return [int(10**6 * rng.paretovariate(0.8)) for _ in range(n)]


def stakes_with_zeros(rng, n):
    """Zeros first, last, in the middle or anywhere."""
    stakes = realistic_stakes(rng, n)
    zeros = rng.randrange(n + 1)
    first = rng.choice([0, n - zeros, (n - zeros) // 2])
    stakes[first:first + zeros] = [0] * zeros
    if rng.randrange(3) == 0:
        rng.shuffle(stakes)
    return stakes


def even_parts(rng, n):
    """Multiples of one stake, so that many are exactly a whole number of seats."""
    unit = rng.choice([1, 3, 10**6, 2**40])
    return [unit * rng.randrange(1, 5) for _ in range(n)]


def top_stakes(rng, n):
    return parts(rng, n, TOP)


def huge_stakes(rng, n):
    """Often past the top."""
    return [rng.choice([0, 0, 1, HALF, HALF - 1, TOP, TOP - 1]) for _ in range(n)]


def over_stakes(rng, n):
    return parts(rng, n, TOP + 1) if n > 1 else [TOP]


SHAPES = 4 * [small_stakes, equal_stakes, realistic_stakes, stakes_with_zeros, even_parts]
SHAPES += [top_stakes, top_stakes, huge_stakes, over_stakes]


def length(rng):
    """Mostly short, seldom one of the lengths at which the tree changes."""
    kind = rng.randrange(60)
    if kind == 0:
        return rng.choice(LENGTHS)
    if kind < 8:
        return rng.choice([15, 16, 17, 33])
    return rng.randrange(1, 12)


def any_stakes(rng):
    n = length(rng)
    return rng.choice(SHAPES)(rng, n) if n > 0 else []


def any_size(rng, least=0):
    """k or bins."""
    kind = rng.randrange(100)
    if kind == 0:
        return rng.choice(SIZES)
    return rng.randrange(least, 25 if kind < 20 else 8)


# ---- One random case of each operation ----

def below(rng):
    m = rng.choice([1, 2, 3, 10, 2**32, HALF, HALF + 1, TOP, rng.randrange(1, 2**64),
                    rng.randrange(1, 100)])
    return case("below", m=m, words=words(rng, 1, m))


def fraction(rng):
    return case("fraction", words=words(rng, 1))


def weighted(rng):
    weights = any_stakes(rng)
    while not 1 <= sum(weights) <= TOP:
        weights = any_stakes(rng)
    return case("weighted", weights=weights, words=words(rng, 1, sum(weights)))


def list_shuffle(rng):
    items = any_stakes(rng)
    return case("list_shuffle", list=items, words=words(rng, max(len(items) - 1, 0)))


def iid(rng):
    stakes, k = any_stakes(rng), any_size(rng)
    return case("iid", stakes=stakes, k=k, words=words(rng, k, sum(stakes)))


def over_bins(rng, operation, size, least):
    stakes, number = any_stakes(rng), any_size(rng, least)
    return case(operation, stakes=stakes, **{size: number},
                words=words(rng, max(len(stakes) - 1, 0)),
                words2=words(rng, number, sum(stakes)))


def partition(rng):
    return over_bins(rng, "partition", "bins", 0)


def fa1_bins(rng):
    return over_bins(rng, "fa1_bins", "k", 1)


def fa1_draws(rng):
    stakes, k = any_stakes(rng), any_size(rng, 1)
    return case("fa1_draws", stakes=stakes, k=k, words=words(rng, k, sum(stakes)))


def decaying_fields(rng, stakes):
    """Mostly a `max_samples` and an allowance that are accepted."""
    usual = rng.randrange(20) > 0
    max_samples = rng.choice([1.5, 2.0, 2.5, 3.0, 8.0, math.inf] if usual else MAX_SAMPLES)
    allowed = 100_000 if rng.randrange(8) else rng.choice(ALLOWED)
    counts = [rng.choice([0, 0, 0, 1, 2, 3]) for _ in stakes]
    if counts and rng.randrange(30) == 0:
        counts[rng.randrange(len(counts))] = MAX_COUNT - rng.randrange(4)
    return {"max_samples": bits_of(max_samples), "allowed": allowed, "counts": counts}


def decaying(rng):
    stakes, k = any_stakes(rng), any_size(rng)
    return case("decaying", stakes=stakes, k=k, **decaying_fields(rng, stakes),
                words=words(rng, 6 * k, sum(stakes)))


def decaying_one(rng):
    stakes = any_stakes(rng)
    return case("decaying_one", stakes=stakes, **decaying_fields(rng, stakes),
                words=words(rng, 12, sum(stakes)))


def tree(rng):
    return case("tree", stakes=any_stakes(rng))


def shuffle(rng):
    stakes = any_stakes(rng)
    return case("shuffle", stakes=stakes, words=words(rng, len(stakes), sum(stakes)))


def turbine(rng):
    stakes = any_stakes(rng)
    n = len(stakes)
    fanout = rng.choice(FANOUTS) if rng.randrange(5) == 0 else rng.randrange(1, 6)
    own = rng.randrange(n) if n and rng.randrange(20) else rng.choice([n, n + 1, TOP])
    return case("turbine", stakes=stakes, fanout=fanout, own=own,
                words=words(rng, n, sum(stakes)))


def seed_number(rng):
    return rng.choice([0, 1, 255, 256, HALF, TOP, rng.randrange(2**64)])


def turbine_seed(rng):
    return case("turbine_seed", slot=seed_number(rng), shred=seed_number(rng))


def rotor_seed(rng):
    return case("rotor_seed", slot=seed_number(rng), slice=seed_number(rng))


OFTEN = [weighted, list_shuffle, iid, partition, fa1_bins, fa1_draws, decaying,
         decaying_one, shuffle, turbine]
GENERATORS = 6 * OFTEN + 3 * [below, tree] + [fraction, turbine_seed, rotor_seed]


# ---- The limits ----

def sampler_cases(stakes, k, supply):
    """One case of each sampler over the same list; `supply` gives words."""
    counts = [0] * len(stakes)
    yield case("iid", stakes=stakes, k=k, words=supply(k))
    yield case("partition", stakes=stakes, bins=k, words=supply(len(stakes)), words2=supply(k))
    yield case("fa1_bins", stakes=stakes, k=k, words=supply(len(stakes)), words2=supply(k))
    yield case("fa1_draws", stakes=stakes, k=k, words=supply(k))
    yield case("decaying", stakes=stakes, k=k, **SLOWLY_DECAYING, counts=counts,
               words=supply(2 * k))
    yield case("decaying_one", stakes=stakes, **SLOWLY_DECAYING, counts=counts, words=supply(2))


def plenty(rng):
    return lambda need: [rng.randrange(2**64) for _ in range(need + need // 4 + 20)]


def spread(need):
    """Words that are spread evenly, and more than are needed."""
    return [i * GOLDEN % 2**64 for i in range(need + need // 4 + 20)]


def length_cases(rng):
    """Every length for every operation over a list; the long ones once."""
    supply = plenty(rng)
    for n in LENGTHS + LONG_LENGTHS:
        stakes = realistic_stakes(rng, n)
        yield from sampler_cases(stakes, 3, supply)
        yield case("list_shuffle", list=list(range(n)), words=supply(n))
        yield case("shuffle", stakes=stakes, words=supply(n))
        yield case("turbine", stakes=stakes, fanout=16, own=n // 2, words=supply(n))
        if n <= 4_096:
            yield case("tree", stakes=stakes)


def size_cases(rng):
    for k in SIZES:
        for stakes in ([3, 0, 10**9, 7], equal_stakes(rng, 7), top_stakes(rng, 5), [2_048] * 3):
            yield from sampler_cases(stakes, k, plenty(rng))


def sum_cases(rng):
    """Sums at the top and past it, alone and with zeros, and no stake at all."""
    lists = ([0], [0] * 5, [TOP], [TOP, 0], [0, TOP], [TOP, 1], [TOP - 1, 1], [TOP - 1, 2],
             [HALF], [HALF, HALF - 1], [HALF, HALF], [HALF, 0, HALF], [TOP, 1, 0], [TOP, TOP],
             [TOP, TOP, 2], [HALF, HALF, 1, 1], [TOP - 1, 2, 1, 1])
    for stakes in lists:
        for k in (0, 1, 2, 3):
            yield from sampler_cases(stakes, k, plenty(rng))
        yield case("tree", stakes=stakes)
        yield case("shuffle", stakes=stakes, words=plenty(rng)(len(stakes)))
        yield case("turbine", stakes=stakes, fanout=2, own=0, words=plenty(rng)(len(stakes)))


def worked_cases(rng):
    """The lists of the worked numbers, and those of docs/DIFFERENCES.md."""
    for stakes, k in (([1] * 49, 49), ([HALF], 2), ([5, 3, 2], 4), ([3, 0, 4], 2), ([5], 4),
                      ([4], 3), ([6], 4), ([5], 3), ([7], 4), ([1] * 4, 3), ([1] * 5, 4),
                      ([15, 7], 22), ([10679670600444, 2426574706391], 956),
                      ([HALF, HALF // 2], 4), ([2**60 - 1, 3 * 2**59, 3 * 2**59, 1], 4)):
        yield from sampler_cases(stakes, k, plenty(rng))
    yield case("below", m=10, words=[13])
    yield case("below", m=10, words=[18446744073709551610, 18446744073709551609])
    yield case("shuffle", stakes=[2, 0, 3], words=[4, 1, 0])
    for own in range(3):
        yield case("turbine", stakes=[2, 0, 3], fanout=2, own=own, words=[4, 1, 0])


def whole_seat_cases(rng):
    """Stakes of exactly one or two seats, where a rounded floor may fall short."""
    for n in range(40, 110):
        stakes = equal_stakes(rng, n)
        for k in (n, 2 * n):
            yield case("fa1_draws", stakes=stakes, k=k, words=plenty(rng)(k))
        yield case("fa1_bins", stakes=stakes, k=n, words=plenty(rng)(n), words2=plenty(rng)(n))


def no_seat_cases(_rng):
    """No bins and no seats, over lists that are turned down as well."""
    for stakes in ([], [0], [0, 0], [TOP, 1], [HALF, HALF, 5], [1] * 4_097, [3, 4]):
        yield case("partition", stakes=stakes, bins=0, words=[], words2=[])
        yield case("iid", stakes=stakes, k=0, words=[])
        yield case("fa1_bins", stakes=stakes, k=0, words=[], words2=[])
        yield case("fa1_draws", stakes=stakes, k=0, words=[])
        yield case("decaying", stakes=stakes, k=0, **DECAYING, counts=[0] * len(stakes), words=[])


def dry_cases(_rng):
    """Words that run out at every place; small sums, so that none is skipped."""
    order, seats = [1, 0, 3, 2], [4, 1, 6, 3, 0]
    stakes, tries = [2, 0, 3, 1, 5], [0, 5, 7, HALF, 9, 3, 5, 2**61, 3, HALF]
    for n in range(len(seats) + 1):
        yield case("below", m=10, words=[TOP] * n)
        yield case("iid", stakes=stakes, k=5, words=seats[:n])
        yield case("fa1_draws", stakes=stakes, k=5, words=seats[:n])
        yield case("shuffle", stakes=stakes, words=seats[:n])
        yield case("turbine", stakes=stakes, fanout=2, own=3, words=seats[:n])
        yield case("list_shuffle", list=stakes, words=order[:n])
        for operation, size in (("partition", "bins"), ("fa1_bins", "k")):
            full = {"stakes": stakes, size: 4}
            yield case(operation, **full, words=order[:n], words2=seats)
            yield case(operation, **full, words=order, words2=seats[:n])
    for n in range(len(tries) + 1):
        yield case("decaying", stakes=stakes, k=4, **DECAYING, counts=[1] * 5, words=tries[:n])
        yield case("decaying_one", stakes=stakes, **DECAYING, counts=[2] * 5, words=tries[:n])


def decaying_cases(rng):
    """Every `max_samples`, allowance and stored count at the limits."""
    base = {"stakes": [3, 0, 4], "counts": [1, 0, 1]}
    for max_samples in MAX_SAMPLES:
        for allowed in ALLOWED:
            settings = {"max_samples": bits_of(max_samples), "allowed": allowed}
            both_cases = {**base, **settings}
            yield from decaying_pair(both_cases, 2, plenty(rng)(20))
    for k in (0, 1, 2, 5):
        for under in range(7):
            counts = [0, 0, MAX_COUNT - under]
            settings = {**base, "max_samples": bits_of(math.inf), "allowed": 100_000}
            yield from decaying_pair({**settings, "counts": counts}, k, plenty(rng)(20))


def decaying_pair(fields, k, supply):
    """The committee and the one seat of the same fields."""
    names = ("max_samples", "allowed", "counts")
    rest = {name: fields[name] for name in names}
    yield case("decaying", stakes=fields["stakes"], k=k, **rest, words=supply)
    yield case("decaying_one", stakes=fields["stakes"], **rest, words=supply)


def last_try_cases(_rng):
    """The last allowed try accepted, rejected, and cut before its fraction."""
    for allowed in (1, 2, 5, 100_000):
        rejected = [0, 0] * (allowed - 1)
        for last in ([0, HALF], [0, HALF - 1], [0, HALF - 1, 0, HALF], [0], []):
            fields = {"stakes": [1], "max_samples": bits_of(2.0), "allowed": allowed,
                      "counts": [1]}
            yield case("decaying_one", **fields, words=rejected + last)
    for half in (HALF, HALF - 1):
        yield case("decaying", stakes=[1], k=1, max_samples=bits_of(2.0), allowed=1,
                   counts=[1], words=[0, half])


def later_try_cases(_rng):
    """The same for a committee, at its only seat and at its second."""
    for allowed in (1, 2, 5, 100_000):
        settings = {"max_samples": bits_of(2.0), "allowed": allowed}
        rejected = [0, 0] * (min(allowed, 5) - 1)
        for last in ([0, HALF], [0, HALF - 1], [0, HALF - 1, 0, HALF], [0], []):
            yield case("decaying", stakes=[1], k=1, **settings, counts=[1], words=rejected + last)
            yield case("decaying", stakes=[1], k=2, **settings, counts=[0],
                       words=[0, 0] + rejected + last)


def rejected_once_cases(_rng):
    """Every `max_samples`: count 0 is accepted, count 1 at a half or not, then count 0 again."""
    supply = [0, 0, 0, HALF, 3, 0]
    for max_samples in MAX_SAMPLES:
        settings = {"max_samples": bits_of(max_samples), "allowed": 100_000}
        yield case("decaying", stakes=[3, 0, 4], k=2, **settings, counts=[0] * 3, words=supply)
        yield case("decaying_one", stakes=[3, 0, 4], **settings, counts=[1, 0, 0],
                   words=supply[2:])


def dry_try_cases(_rng):
    """Words that run out at every place of tries that are accepted with all of them."""
    supply = [0, 0, 0, HALF - 1, 1, 0, 0, HALF, 1, HALF]
    for n in range(len(supply) + 1):
        yield case("decaying", stakes=[1, 1], k=3, **DECAYING, counts=[1, 0], words=supply[:n])
        yield case("decaying_one", stakes=[1, 1], **DECAYING, counts=[1, 0], words=supply[:n])


def long_list_cases(_rng):
    """No list, the longest with the largest committee too, and one that is longer; small stakes."""
    for n, k in ((0, 1), (4_096, 1), (4_097, 1), (4_096, 1_024)):
        yield from sampler_cases([i % 3 for i in range(n)], k, spread)


def scratch_cases(_rng):
    """The lengths and sizes at which a sampler takes more scratch space."""
    for n in (64, 65, 512, 513, 2_048, 2_049):
        yield from sampler_cases([i % 3 for i in range(n)], 1, spread)
    for k in (64, 65):
        yield from sampler_cases([3, 0, 4], k, spread)


def zero_stake_cases(_rng):
    """Zeros first, in the middle and last, with every value that a draw can give."""
    for stakes in ([0, 2, 3], [2, 0, 3], [2, 3, 0], [0, 2, 0, 3, 0]):
        yield from sampler_cases(stakes, 3, spread)
        for value in range(5):
            yield from sampler_cases(stakes, 1, lambda need, word=value: [word] * need)


def skip_cases(_rng):
    """Words that are skipped: below 2^63 + 1 that is every word from there on."""
    stakes, settings = [HALF, 0, 1], {**DECAYING, "counts": [1] * 3}
    for draw in ([HALF + 1, 5], [TOP, HALF + 1, HALF], [HALF], [TOP], [TOP, TOP, TOP]):
        yield case("iid", stakes=stakes, k=1, words=draw)
        yield case("iid", stakes=stakes, k=2, words=[0] + draw)
        yield case("fa1_draws", stakes=stakes, k=1, words=draw)
        for rest in ([], [HALF], [HALF - 1]):
            yield from decaying_pair({"stakes": stakes, **settings}, 1, draw + rest)
            yield case("decaying", stakes=stakes, k=2, **settings, words=[0, HALF] + draw + rest)


def lowest_cases(_rng):
    """A count past the limit, with no word or with stakes that are turned down before it."""
    for stakes in ([TOP, 1], [0, 0], [1, 1]):
        yield from decaying_pair({"stakes": stakes, **DECAYING, "counts": [MAX_COUNT, 0]}, 1, [])


def bin_sampler_cases(stakes, k, order, seats):
    """A partition and both committees of FA1 over the same list, by the words of the shuffle and
    of the seats."""
    yield case("partition", stakes=stakes, bins=k, words=order, words2=seats)
    yield case("fa1_bins", stakes=stakes, k=k, words=order, words2=seats)
    yield case("fa1_draws", stakes=stakes, k=k, words=seats)


def bin_value_cases(_rng):
    """Short and full last bins, ends of stakes inside and at the end of bins; small values."""
    for stakes, k in (([3, 0, 4], 2), ([2, 2, 1], 3), ([3, 3, 0], 2), ([1, 9, 2], 4), ([5, 5], 5),
                      ([3, 3, 3, 2], 3), ([3] * 4, 3), ([0, 3, 3, 3, 3, 0], 3),
                      ([2, 1, 2, 0, 2], 3), ([4, 1, 4, 4, 4], 4)):
        # Word i swaps place i with itself.
        for order in (list(range(1, len(stakes))), [0] * len(stakes)):
            for value in range(5):
                yield from bin_sampler_cases(stakes, k, order, [value] * k)


def bin_skip_cases(_rng):
    """Words that are skipped: below 3 the highest word, below 2^63 + 1 every word from there on."""
    for order in ([0, TOP, 1], [TOP, TOP, TOP, 0], [TOP, TOP, TOP], [0]):
        yield from bin_sampler_cases([3, 0, 4], 2, order, [5, 1])
    for seats in ([HALF + 1, 5], [TOP, HALF + 1, HALF], [HALF], [TOP], [TOP, TOP, TOP]):
        yield from bin_sampler_cases([HALF, 0, 1], 1, [0, 1], seats)


def rounded_cases(_rng):
    """Totals about 2^54 and 2^64 of which f64 finds a seat too many or too few."""
    for stakes, k in (([2**53, 2**53 + 1], 4), ([7205759403792795, 10808639105689192], 5),
                      ([3 * 2**62 - 1, 2**62], 4), ([TOP // 51 * 20, TOP // 51 * 31], 51)):
        yield from bin_sampler_cases(stakes, k, spread(len(stakes)), spread(k))


def bin_scratch_cases(_rng):
    """Lengths and sizes at which a sampler over bins takes more scratch space; in few digits."""
    def small(need):
        return [i * i % 13 for i in range(need)]

    def sparse(n):
        return [1 + i % 5 if i % 16 == 0 else 0 for i in range(n)]

    lists = [(sparse(n), 3) for n in (64, 65, 1_024, 1_025)]
    for k in (64, 65):
        lists += [([1_559, 0, 2_601], k), ([1] * 2 * k, k)]
    lists += [([9_469] + sparse(4_095), 1_024)]
    for stakes, k in lists:
        yield from bin_sampler_cases(stakes, k, small(len(stakes)), small(k))


def view_cases(rng):
    for fanout in FANOUTS:
        for n in (1, 2, 17, 40):
            stakes, supply = stakes_with_zeros(rng, n), plenty(rng)(n)
            for own in (0, n - 1, n, n + 1):
                yield case("turbine", stakes=stakes, fanout=fanout, own=own, words=supply)


# ---- The limits of the shuffle ----

def few_digits(need):
    """Words below 4,096 that are spread evenly, and more than are needed."""
    return [word >> 52 for word in spread(need)]


def weight_lists():
    """Every length; zeros, equal weights, and sums of 2^64 - 1."""
    for n in LENGTHS + LONG_LENGTHS:
        yield [(i + 1) % 3 for i in range(n)]
    for n in (1, 3, 17):
        yield [0] * n
    for n in (2, 16, 17, 33):
        yield [7] * n
    for n in (1, 2, 16, 17, 257):
        yield [TOP // n] * (n - 1) + [TOP - TOP // n * (n - 1)]


def overflowing_lists():
    """Weights that would take the sum past 2^64 - 1, at each place and at several."""
    for n in (3, 5, 18):
        for place in range(n):
            yield [TOP if i == place else 5 for i in range(n)]
    yield from ([HALF, HALF - 1, 1, 0], [HALF, HALF, 1, HALF, HALF - 2, 0, 2],
                [3, 0, TOP, 0, 4], [HALF if i % 5 == 0 else i % 2 for i in range(35)])


def dry_shuffles():
    """Words that run out at every place: in the weights, in the zeros, in those that overflow."""
    for stakes, supply in (([0, 3, 0, 0, 4, 1], [7, 0, 3, 2, 1, 0]), ([0, 0, 0], [2, 0, 0]),
                           ([TOP - 1, 2, 1, 1], [TOP - 1, 5, 1, 0])):
        for n in range(len(supply) + 1):
            yield stakes, supply[:n]


def skipping_shuffles():
    """Words that are skipped: below 3, 6 and 9 the highest, below 2^63 + 1 all from there on."""
    for supply in ([TOP, 4, TOP - 1, TOP, 2, TOP, 1], [8, TOP], [TOP] * 3):
        yield [3, 3, 3], supply
        yield [0, 0, 0], supply
    yield [HALF, 0, 1], [TOP, HALF + 1, HALF, 7, 0]


def valued_shuffles():
    """Every value of a first draw, and zeros that move into the gap."""
    for stakes in ([2, 3, 1], [0, 2, 0, 3, 0]):
        for value in range(sum(stakes)):
            yield stakes, [value] + [0] * len(stakes)
    for n in (3, 4, 17):
        yield [0] * n, [0] * n


def shuffle_cases():
    for stakes in (*weight_lists(), *overflowing_lists()):
        supply = few_digits if sum(stakes) < HALF else spread
        yield case("tree", stakes=stakes)
        yield case("shuffle", stakes=stakes, words=supply(len(stakes)))
    for stakes, supply in (*dry_shuffles(), *skipping_shuffles(), *valued_shuffles()):
        yield case("shuffle", stakes=stakes, words=supply)
    # Past the longest list, where the tree has one level more.
    yield case("tree", stakes=[0] * 2**16)


# ---- The limits of views, seeds and relays ----

def view(stakes, fanout, own, supply):
    return case("turbine", stakes=stakes, fanout=fanout, own=own, words=supply)


def fanouts(n):
    """Fanouts at the limits and about the list's length."""
    return sorted({1, 2, 16, 200, 4_096, n - 1, n, n + 1}.intersection(range(1, 4_097)))


def positions(n, fanout):
    """The first and second position, the last parent and the one after it, and the last."""
    last_parent = max(n - 2, 0) // fanout
    return sorted({0, 1, last_parent, last_parent + 1, n - 1}.intersection(range(n)))


def every_view(stakes, supply):
    """The view of every validator, with few and with many children."""
    for fanout in sorted({1, 2, 3, 200}.union(fanouts(len(stakes)))):
        for own in range(len(stakes)):
            yield view(stakes, fanout, own, supply)


def small_views():
    """All views of short lists; zeros, equal weights, weights that overflow."""
    yield from every_view([2, 0, 3], [4, 1, 0])
    for n in range(1, 7):
        yield from every_view([(i + 1) % 3 for i in range(n)], few_digits(n))
    for stakes in ([0] * 4, [7] * 5, [0, 0, 5, 0, 0], [TOP, 1, 0], [TOP - 1, 2, 1, 1],
                   [HALF, HALF - 1, 1, 0], [5, TOP, 5]):
        yield from every_view(stakes, spread(len(stakes)))


def long_views():
    """Lists of each length at which the tree changes, with every kind of position; the long ones
    are mostly zeros."""
    for n in (15, 16, 17, 33, 255, 256, 257, 4_095, 4_096):
        stakes = [(1 + i % 5) * (n < 100 or i % 16 == 0) for i in range(n)]
        supply = few_digits(n)
        order = shuffle_order(stakes, Words(supply))
        for fanout in fanouts(n) if n < 4_000 else (1, 16, 200, n - 1, 4_096):
            for p in positions(n, fanout):
                yield view(stakes, fanout, order[p], supply)


def word_views():
    """Words that run out at every place, and words that are skipped."""
    for stakes, supply in (*dry_shuffles(), *skipping_shuffles(), *valued_shuffles()):
        for own in (0, len(stakes) - 1):
            yield view(stakes, 2, own, supply)


def refused_views():
    """Every reason to turn a view down, alone and with those after it."""
    for stakes in ([], [3], [2, 0, 3]):
        n = len(stakes)
        for fanout in (0, 1, 4_096, 4_097, HALF, TOP):
            for own in (0, n, n + 1, TOP):
                # With the highest fanouts the Rust's products wrap, where the own id is found.
                if fanout < HALF or own >= n:
                    yield view(stakes, fanout, own, few_digits(n))
    yield view([0] * 4_097, 2, 0, few_digits(4_097))
    yield view([0] * 4_097, 0, 4_097, [])
    for fanout, own in ((0, 3), (2, 3), (0, 0), (2, 0)):
        yield view([2, 0, 3], fanout, own, [])


def seed_cases():
    """Numbers that differ in each byte, and each byte alone."""
    numbers = [0, 1, 255, 256, HALF, TOP, 0x0102030405060708, 0xF0E0D0C0B0A09080]
    numbers += [1 << 8 * i for i in range(8)]
    for i, slot in enumerate(numbers):
        number = numbers[-1 - i]
        yield case("turbine_seed", slot=slot, shred=number)
        yield case("rotor_seed", slot=slot, slice=number)


def relay_cases():
    """Each position about the ends of committees, of which the longest are refused."""
    rng = random.Random(SEED)
    for k in (0, 1, 2, 3, 63, 64, 65, 200, 1_023, 1_024, 1_025):
        seats = [i * GOLDEN % 2**64 >> 52 for i in range(1, k + 1)]
        for shred in sorted({0, 1, k // 2, 62, 63, 64, 65, k - 2, k - 1, k, k + 1, TOP} - {-1, -2}):
            yield case("relay", seats=seats, shred=shred)
    for _ in range(200):
        seats = [rng.choice([rng.randrange(4_096), TOP]) for _ in range(rng.randrange(70))]
        yield case("relay", seats=seats, shred=rng.randrange(72))


# ---- Counts, sizes and stakes ----

def size_and_reset_cases():
    """Sizes about each power of sixteen; counts of each length."""
    powers = [16**i for i in range(16)]
    for count in sorted({0, *powers, *(p - 1 for p in powers), *(p + 1 for p in powers[:-1])}):
        yield case("sizes", count=count)
    for n in range(1, 6):
        yield case("reset", counts=[i * MAX_COUNT // n for i in range(1, n + 1)])


def stake_cases():
    """Numbers about each limit, with each other; sums to the top and past it; every number of
    digits."""
    numbers = (0, 1, 2, 3, 10, 2**32 - 1, 2**32, 2**32 + 1, HALF - 1, HALF, HALF + 1, TOP - 1, TOP)
    for stake in numbers:
        for other in numbers:
            yield case("div_ceil", stake=stake, divisor=other)
            for operation in ("checked_add", "sub", "mul"):
                yield case(operation, stake=stake, rhs=other)
            yield case("sum", stakes=[stake, 0, other])
    for n in (0, 1, 4_096, 4_097):
        yield case("sum", stakes=[TOP // max(n, 1)] * n)
    for number in sorted({0, TOP, *(10**i - 1 for i in range(20)), *(10**i for i in range(20))}):
        yield case("stake_fmt", stake=number)
        yield case("index_fmt", id=number)


def turbine_cases():
    for limit in (small_views, long_views, word_views, refused_views, seed_cases, relay_cases):
        yield from limit()


LIMITS = (length_cases, size_cases, sum_cases, worked_cases, whole_seat_cases, no_seat_cases,
          dry_cases, decaying_cases, last_try_cases, later_try_cases, rejected_once_cases,
          dry_try_cases, long_list_cases, scratch_cases, zero_stake_cases, skip_cases, lowest_cases,
          bin_value_cases, bin_skip_cases, rounded_cases, bin_scratch_cases, view_cases)


def cases(n):
    """About n cases: the limits, all of them for any n, then random ones. The limits of the shuffle,
    of views, seeds and relays, and of sizes and stakes come last and are not among the n, so that
    the random cases stay the same."""
    rng = random.Random(SEED)
    lines = [line for limit in LIMITS for line in limit(rng)]
    while len(lines) < n:
        lines.append(rng.choice(GENERATORS)(rng))
    return [*lines, *shuffle_cases(), *turbine_cases(), *size_and_reset_cases(), *stake_cases()]


def main():
    sys.stdout.writelines(line + "\n" for line in cases(int(sys.argv[1])))


if __name__ == "__main__":
    main()
