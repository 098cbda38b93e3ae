"""Cases of every entry that chance decides: of common lengths, at the limits, and damaged ones."""

import math

import cases
import model
from entries import ENTRIES, expected, places_needed
from limits import HALF, TOP, word_lists
from store import PASSED, from_cursor

# More than the most places that an accepted call needs, which are n + k pieces.
MOST_PLACES = 5_200
# Numbers about every limit.
EDGES = (0, 1, 2, 15, 16, 17, 31, 32, 33, 63, 64, 65, 1_023, 1_024, 1_025, 4_095, 4_096, 4_097,
         99_999, 100_000, 100_001, 2**32 - 1, 2**32, HALF - 1, HALF, TOP - 1, TOP)


# ---- Numbers ----

def any_number(rng):
    """About a limit, or of any length."""
    return rng.choice(EDGES) if rng.randrange(3) == 0 else rng.randrange(2**rng.randrange(1, 65))


def any_bits(rng):
    """Of an f64: any, or those of a special number."""
    special = model.bits_of(rng.choice(cases.MAX_SAMPLES))
    return rng.choice([rng.randrange(2**64), special])


def any_count(rng):
    return any_number(rng) % 2**32


def weights_counted(rng):
    """About a power of sixteen, or any number."""
    return rng.choice([16**rng.randrange(16) + rng.randrange(-1, 2), any_number(rng)])


# ---- Cases of common lengths ----

def fields_of(generator):
    """The fields of the cases that a generator of the oracle makes."""
    return lambda rng: model.read_case(generator(rng))[1]


def without_k(rng):
    given = fields_of(cases.iid)(rng)
    del given["k"]
    return given


def some_counts(rng):
    return {"counts": [any_count(rng) for _ in range(cases.length(rng))]}


def some_seats(rng):
    seats = [any_number(rng) for _ in range(rng.choice([rng.randrange(70), 64]))]
    return {"seats": seats, "shred": rng.choice([rng.randrange(72), any_number(rng)])}


def two_numbers(first, second):
    return lambda rng: {first: any_number(rng), second: any_number(rng)}


COMMON = {
    "stake_weighted_sample": without_k,
    "iid_sample_quorum": fields_of(cases.iid),
    "decaying_acceptance_sample_one": fields_of(cases.decaying_one),
    "decaying_acceptance_sample_quorum": fields_of(cases.decaying),
    "decaying_acceptance_reset": some_counts,
    "partition_sample_quorum": fields_of(cases.partition),
    "fait_accompli1_with_partition_fallback": fields_of(cases.fa1_bins),
    "fait_accompli1_with_stake_weighted_fallback": fields_of(cases.fa1_draws),
    "get_num_nodes_and_tree_size": lambda rng: {"count": weights_counted(rng)},
    "weighted_shuffle": fields_of(cases.shuffle),
    "turbine_tree_new": fields_of(cases.turbine),
    "turbine_seed": fields_of(cases.turbine_seed),
    "rotor_seed": fields_of(cases.rotor_seed),
    "sample_relay": some_seats,
    "stake_div_ceil": two_numbers("stake", "divisor"),
    "stake_checked_add": two_numbers("stake", "rhs"),
    "stake_sub": two_numbers("stake", "rhs"),
    "stake_mul": two_numbers("stake", "rhs"),
    "stake_sum": lambda rng: {"stakes": cases.any_stakes(rng)},
    "stake_fmt": lambda rng: {"stake": any_number(rng)},
    "validator_index_fmt": lambda rng: {"id": any_number(rng)},
}
assert COMMON.keys() == ENTRIES.keys()
OVER_LISTS = [name for name, entry in ENTRIES.items() if "words" in entry.fields]
# The entries over lists are asked more often.
OFTEN = [*ENTRIES, *4 * OVER_LISTS]


def common_case(rng):
    name = rng.choice(OFTEN)
    given = lent(rng, name, COMMON[name](rng))
    return name, hampered(rng, name, given) if rng.randrange(4) == 0 else given


# ---- What a case is lent ----

def lent(rng, name, given):
    """With words before the cursors, and as many places as are needed or more."""
    given = dict(given)
    for which in word_lists(given):
        given.update(from_cursor(given, which, rng.randrange(len(PASSED) + 1)))
    for room, places in places_needed(name, given).items():
        given[room] = min(places, MOST_PLACES) + rng.choice([0, 0, 1, 2, 5])
    if "counts" in given and "stakes" in given:
        given["counts"] = given["counts"] + [any_count(rng) for _ in range(rng.randrange(3))]
    return given


def one_buffer_short(rng, name, given):
    """By a place, or all of them."""
    needed = places_needed(name, given)
    needed = {room: places for room, places in needed.items() if 0 < places <= MOST_PLACES}
    if "counts" in given and given.get("stakes"):
        needed["counts"] = len(given["stakes"])
    if not needed:
        return given
    buffer = rng.choice(list(needed))
    left = rng.choice([needed[buffer] - 1, needed[buffer] - 1, 0])
    return {**given, buffer: given["counts"][:left] if buffer == "counts" else left}


def near_the_end(rng, _name, given):
    """A cursor that leaves one word or none."""
    if not word_lists(given):
        return given
    which = rng.choice(word_lists(given))
    end = len(given["words" + which])
    return {**given, "cursor" + which: rng.choice([max(end - 1, 0), end, end + 1, HALF, TOP])}


def words_read(name, given):
    """How many words of each list an accepted call reads; nothing of another."""
    fields = (field.partition("=") for field in expected(name, given).model.split())
    return {field: int(value) for field, _, value in fields if field in ("read", "read2")}


def words_cut(rng, name, given):
    """Just the words that are read, or one too few."""
    read, given = words_read(name, given), dict(given)
    for which in word_lists(given):
        if "read" + which in read:
            end = given["cursor" + which] + read["read" + which] - rng.randrange(2)
            given["words" + which] = given["words" + which][:max(end, 0)]
    return given


def hampered(rng, name, given):
    return rng.choice([one_buffer_short, near_the_end, words_cut])(rng, name, given)


# ---- Damaged cases ----

NUMBER_FIELDS = ("k", "bins", "fanout", "own", "shred", "allowed", "count", "slot", "slice",
                 "stake", "divisor", "rhs", "id")


def damaged_case(rng):
    """Up to two numbers of a case and an f64 are anything; then it is hampered up to twice."""
    name = rng.choice(OFTEN)
    given = COMMON[name](rng)
    fields = [field for field in given if field in NUMBER_FIELDS]
    for field in rng.sample(fields, min(len(fields), rng.randrange(3))):
        given[field] = any_number(rng)
    if "max_samples" in given and rng.randrange(2):
        given["max_samples"] = any_bits(rng)
    given = lent(rng, name, given)
    for _ in range(rng.randrange(3)):
        given = hampered(rng, name, given)
    return name, given


# ---- The limits ----

def entries_of(line):
    """The cases of entries that a case of the oracle leads to; none for one of the draws."""
    operation, given = model.read_case(line)
    if operation == "tree":
        operation, given = "sizes", {"count": len(given["stakes"])}
    for name, entry in ENTRIES.items():
        if entry.operation == operation and (name != "stake_weighted_sample" or given["k"] == 1):
            yield name, {field: given[field] for field in given if field in entry.fields}


def listed_limits():
    """The limits that the oracle is compared on, which are the same for every seed; those that take
    long come last."""
    return [case for line in sorted(cases.cases(0), key=len) for case in entries_of(line)]


def limit_stakes(rng, n):
    """A few stakes among zeros: small ones, or with the sum 2^64 - 1 or 2^64."""
    few = min(n, rng.choice([0, 1, 3, 40]))
    shape = rng.choice([cases.small_stakes, cases.realistic_stakes, cases.top_stakes,
                        cases.over_stakes])
    stakes = [0] * n
    for place, stake in zip(rng.sample(range(n), few), shape(rng, few) if few else []):
        stakes[place] = stake
    return stakes


def limit_lengths(rng):
    """The lengths of the list and of the committee; seldom are both long, for time's sake."""
    n, k = rng.choice(cases.LENGTHS + cases.LONG_LENGTHS), rng.choice(cases.SIZES)
    if n > 300 and k > 300 and rng.randrange(50):
        n, k = rng.choice([(n, rng.randrange(4)), (rng.choice(cases.LENGTHS), k)])
    return n, k


def limit_counts(rng, n, k):
    """Now and then one at the limit."""
    counts = [0] * n
    if n and rng.randrange(3) == 0:
        counts[rng.randrange(n)] = min(model.MAX_COUNT - k + rng.randrange(-1, 2), model.MAX_COUNT)
    return counts


def limit_case(rng):
    """An entry over a list, with each number at a limit."""
    name = rng.choice(OVER_LISTS)
    n, k = limit_lengths(rng)
    supply = cases.plenty(rng)
    every = {
        "stakes": limit_stakes(rng, n), "k": k, "bins": k, "counts": limit_counts(rng, n, k),
        "words": supply(max(n, 2 * k)), "words2": supply(k),
        "fanout": rng.choice(cases.FANOUTS), "own": rng.choice([0, n // 2, max(n - 1, 0), n]),
        "max_samples": model.bits_of(rng.choice([1.0, 4_096.0, math.inf])),
        "allowed": rng.choice(cases.ALLOWED),
    }
    fields = [field for field in every if field in ENTRIES[name].fields]
    given = lent(rng, name, {field: every[field] for field in fields})
    return name, hampered(rng, name, given) if rng.randrange(2) else given
