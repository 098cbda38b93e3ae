#!/usr/bin/env python3
"""A model of the rules for relay seats and Turbine views, over exact integers.

As a program it reads cases on stdin and writes one answer line each; see
FORMAT.md beside this directory.
"""

import struct
import sys

WORD_END = 2**64
MAX_LIST = 4_096
MAX_SEATS = 1_024
MAX_TRIES = 100_000
MAX_FANOUT = 4_096
MAX_COUNT = 2**32 - 1
SEED_BYTES = 32


# ---- Refusals and words ----

class Refused(Exception):
    """A call is turned down; `number` is its place in the list of reasons."""

    def __init__(self, number):
        super().__init__(number)
        self.number = number


def refuse_if(number, applies):
    if applies:
        raise Refused(number)


class Words:
    """A list of words, and how many of them were read."""

    def __init__(self, words):
        self.words = words
        self.read = 0

    def next(self):
        refuse_if(12, self.read == len(self.words))
        self.read += 1
        return self.words[self.read - 1]

    def past(self, cursor):
        """The words from a cursor on; none where it is past the end."""
        return Words(self.words[cursor:])


# ---- Drawing ----

def draw_below(m, words):
    """Words from 2^64 - (2^64 mod m) on are skipped; the rest give w mod m."""
    skipped_from = WORD_END - WORD_END % m
    w = words.next()
    while w >= skipped_from:
        w = words.next()
    return w % m


def draw_fraction(words):
    return (words.next() // 2**11) / 2**53


def weighted_draw(weights, words):
    """The smallest place whose running sum exceeds a draw v below the sum, and
    its remainder: v less the running sum before the place."""
    v = draw_below(sum(weights), words)
    before = 0
    for place, weight in enumerate(weights):
        if before + weight > v:
            return place, v - before
        before += weight
    raise AssertionError("v is below the sum")


def list_shuffle(items, words):
    items = list(items)
    for i in range(1, len(items)):
        j = draw_below(i + 1, words)
        items[i], items[j] = items[j], items[i]
    return items


# ---- Seats ----

def fixed_seats(stakes, k):
    total = sum(stakes)
    return [s * k // total for s in stakes]


def kept_stakes(stakes, fixed, k):
    total = sum(stakes)
    return [s - f * total // k for s, f in zip(stakes, fixed)]


def bin_capacity(total, bins):
    """ceil(S / b)"""
    return (total + bins - 1) // bins


def bin_would_be_empty(total, bins):
    return bins >= 1 and (bins - 1) * bin_capacity(total, bins) >= total


def fill(order, stakes, bins):
    """The pieces (bin, validator, stake): each stake fills the current bin to
    capacity, then the next; a zero stake leaves no piece."""
    capacity = bin_capacity(sum(stakes), bins)
    pieces = []
    current, room = 0, capacity
    for validator in order:
        left = stakes[validator]
        while left > 0:
            if room == 0:
                current, room = current + 1, capacity
            piece = min(left, room)
            pieces.append((current, validator, piece))
            left -= piece
            room -= piece
    return pieces


def seat_of_bin(pieces, current, words):
    inside = [(validator, stake) for b, validator, stake in pieces if b == current]
    place, _ = weighted_draw([stake for _, stake in inside], words)
    return inside[place][0]


def partition_seats(stakes, bins, words, words2):
    """The seats of the bins and their pieces. With 0 bins no word is read."""
    refuse_if(11, bin_would_be_empty(sum(stakes), bins))
    if bins == 0:
        return [], []
    order = list_shuffle(range(len(stakes)), words)
    pieces = fill(order, stakes, bins)
    return [seat_of_bin(pieces, b, words2) for b in range(bins)], pieces


def fa1_fixed(stakes, k):
    """The fixed seats in list order, repeated; k'; and what each keeps."""
    fixed = fixed_seats(stakes, k)
    seats = [v for v, times in enumerate(fixed) for _ in range(times)]
    return seats, k - len(seats), kept_stakes(stakes, fixed, k)


def iid_seats(stakes, k, words):
    return [weighted_draw(stakes, words)[0] for _ in range(k)]


def decaying_seat(stakes, max_samples, allowed, counts, words):
    """One seat and the tries made for it; its count rises by 1."""
    for tries in range(1, allowed + 1):
        seat, _ = weighted_draw(stakes, words)
        if draw_fraction(words) >= counts[seat] / max_samples:
            counts[seat] += 1
            return seat, tries
    raise Refused(13)


def decaying_committee(stakes, k, max_samples, allowed, counts, words):
    """k seats and the tries over all of them."""
    seats, all_tries = [], 0
    for _ in range(k):
        seat, tries = decaying_seat(stakes, max_samples, allowed, counts, words)
        seats.append(seat)
        all_tries += tries
    return seats, all_tries


def reset_counts(counts):
    return [0] * len(counts)


# ---- Shuffle and view ----

def counted_weights(stakes):
    """A weight that would take the sum past 2^64 - 1 counts as zero."""
    counted, total = [], 0
    for stake in stakes:
        counted.append(stake if total + stake < WORD_END else 0)
        total += counted[-1]
    return counted


def zero_positions(counted):
    return [p for p, weight in enumerate(counted) if weight == 0]


def tree_shape(n):
    """The inner nodes of the smallest full tree of sixteen children a node with
    at least n leaves, and how many nodes hold the parents of all n leaves."""
    num_nodes, leaves = 1, 16
    while leaves < n:
        num_nodes, leaves = num_nodes + leaves, leaves * 16
    last_leaf = num_nodes + n - 1
    return num_nodes, 0 if n == 0 else (last_leaf - 1) // 16 + 1


def weight_below(index, num_nodes, counted):
    """The sum of the counted weights at or below the node of this index."""
    if index < num_nodes:
        children = range(16 * index + 1, 16 * index + 17)
        return sum(weight_below(child, num_nodes, counted) for child in children)
    position = index - num_nodes
    return counted[position] if position < len(counted) else 0


def tree_sums(counted):
    """Sixteen sums for each node, one for each of its children."""
    num_nodes, size = tree_shape(len(counted))
    return [weight_below(child, num_nodes, counted) for child in range(1, 16 * size + 1)]


def shuffle_order(stakes, words):
    """Weighted draws until no weight is left, then the zeros."""
    left = counted_weights(stakes)
    zeros = zero_positions(left)
    order = []
    for _ in range(len(left) - len(zeros)):
        position, _ = weighted_draw(left, words)
        order.append(position)
        left[position] = 0
    while zeros:
        gap = draw_below(len(zeros), words)
        order.append(zeros[gap])
        zeros[gap] = zeros[-1]
        zeros.pop()
    return order


def view(order, fanout, own):
    """Root, parent (None for the root) and children of one validator."""
    p = order.index(own)
    parent = order[(p - 1) // fanout] if p > 0 else None
    first = p * fanout + 1
    return order[0], parent, order[first:first + fanout]


def eight_bytes(number):
    return list(number.to_bytes(8, "big"))


# ---- Stakes ----

def checked(number):
    """A stake is a number of 64 bits."""
    return number if 0 <= number < WORD_END else "none"


def digits_within(room, number):
    """The decimal digits in ASCII; none where a buffer is lent and is shorter."""
    digits = list(str(number).encode())
    return "none" if is_short(room, len(digits)) else digits


# ---- Reasons to turn a call down, from the input ----

def is_short(room, needed):
    """Whether a buffer is lent, and is shorter than needed."""
    return room is not None and room < needed


def pieces_needed(stakes, bins):
    """n + b, none for b = 0"""
    return len(stakes) + bins if bins > 0 else 0


def nodes_needed(stakes):
    """The tree size."""
    return tree_shape(len(stakes))[1]


def children_needed(stakes, fanout):
    """The smaller of fanout and n."""
    return min(fanout, len(stakes))


def check_seats(stakes, k=0, least_k=0, allowed=1, max_samples=1.0, room=None, counts=None,
                piece_rooms=()):
    """`room` is how many seats the lent buffer takes, where one is lent; `piece_rooms` are the
    places of the buffers for pieces."""
    refuse_if(1, not 1 <= len(stakes) <= MAX_LIST)
    refuse_if(2, not least_k <= k <= MAX_SEATS)
    refuse_if(3, not 1 <= allowed <= MAX_TRIES)
    refuse_if(4, not max_samples > 0)
    refuse_if(7, is_short(room, k))
    refuse_if(7, any(is_short(places, pieces_needed(stakes, k)) for places in piece_rooms))
    refuse_if(7, counts is not None and len(counts) < len(stakes))
    refuse_if(8, sum(stakes) >= WORD_END)
    refuse_if(9, sum(stakes) == 0)


def check_shuffle(stakes, room=None, room_nodes=None):
    """An empty list is taken."""
    refuse_if(1, len(stakes) > MAX_LIST)
    refuse_if(7, is_short(room, len(stakes)))
    refuse_if(7, is_short(room_nodes, nodes_needed(stakes)))


def check_view(stakes, fanout, own, room=None, room_nodes=None, room_children=None):
    refuse_if(1, not 1 <= len(stakes) <= MAX_LIST)
    refuse_if(5, not 1 <= fanout <= MAX_FANOUT)
    refuse_if(6, own >= len(stakes))
    refuse_if(7, is_short(room, len(stakes)))
    refuse_if(7, is_short(room_nodes, nodes_needed(stakes)))
    refuse_if(7, is_short(room_children, children_needed(stakes, fanout)))


def check_relay(seats, shred):
    refuse_if(2, len(seats) > MAX_SEATS)
    refuse_if(6, shred >= len(seats))


def check_counts(stakes, counts, k):
    refuse_if(10, any(count > MAX_COUNT - k for count in counts[:len(stakes)]))


# ---- Operations: the fields of a case to the fields of its answer ----
# Fields of stored cases alone: `cursor` and `cursor2` are the places in `words` and `words2` from
# which words are read, `room` is how many seats, positions or bytes the lent buffer takes,
# `room_bins`, `room_validators` and `room_stakes` are the places of the buffers for pieces,
# `room_nodes` is how many nodes are lent, and `room_children` how many places for children.

OPERATIONS = {}


def operation(function):
    OPERATIONS[function.__name__.removeprefix("answer_")] = function
    return function


@operation
def answer_below(m, words):
    return {"value": draw_below(m, words), "read": words.read}


@operation
def answer_fraction(words):
    return {"bits": bits_of(draw_fraction(words)), "read": words.read}


@operation
def answer_weighted(weights, words):
    place, remainder = weighted_draw(weights, words)
    return {"place": place, "remainder": remainder, "read": words.read}


@operation
def answer_list_shuffle(list, words):
    return {"list": list_shuffle(list, words), "read": words.read}


@operation
def answer_iid(stakes, k, words, cursor=0, room=None):
    check_seats(stakes, k, room=room)
    words = words.past(cursor)
    return {"seats": iid_seats(stakes, k, words), "read": words.read}


def piece_fields(pieces):
    names = ("piece_bins", "piece_validators", "piece_stakes")
    return {name: [piece[i] for piece in pieces] for i, name in enumerate(names)}


@operation
def answer_partition(stakes, bins, words, words2, cursor=0, cursor2=0, room=None,
                     room_bins=None, room_validators=None, room_stakes=None):
    check_seats(stakes, bins, room=room, piece_rooms=(room_bins, room_validators, room_stakes))
    words, words2 = words.past(cursor), words2.past(cursor2)
    seats, pieces = partition_seats(stakes, bins, words, words2)
    return {"seats": seats, **piece_fields(pieces),
            "read": words.read, "read2": words2.read}


@operation
def answer_fa1_bins(stakes, k, words, words2, cursor=0, cursor2=0, room=None,
                    room_bins=None, room_validators=None, room_stakes=None):
    check_seats(stakes, k, least_k=1, room=room,
                piece_rooms=(room_bins, room_validators, room_stakes))
    words, words2 = words.past(cursor), words2.past(cursor2)
    fixed, further, kept = fa1_fixed(stakes, k)
    drawn, pieces = partition_seats(kept, further, words, words2)
    return {"seats": fixed + drawn, "further": further, **piece_fields(pieces),
            "read": words.read, "read2": words2.read}


@operation
def answer_fa1_draws(stakes, k, words, cursor=0, room=None):
    check_seats(stakes, k, least_k=1, room=room)
    words = words.past(cursor)
    fixed, further, kept = fa1_fixed(stakes, k)
    drawn = iid_seats(kept, further, words)
    return {"seats": fixed + drawn, "further": further, "read": words.read}


@operation
def answer_decaying(stakes, k, max_samples, allowed, counts, words, cursor=0, room=None):
    """The committee starts from the stored counts and leaves n zeros."""
    check_seats(stakes, k, allowed=allowed, max_samples=max_samples, room=room, counts=counts)
    check_counts(stakes, counts, k)
    words = words.past(cursor)
    seats, tries = decaying_committee(stakes, k, max_samples, allowed, counts, words)
    n = len(stakes)
    return {"seats": seats, "counts": [0] * n + counts[n:],
            "tries": tries, "read": words.read}


@operation
def answer_decaying_one(stakes, max_samples, allowed, counts, words, cursor=0):
    check_seats(stakes, allowed=allowed, max_samples=max_samples, counts=counts)
    check_counts(stakes, counts, 1)
    words = words.past(cursor)
    seat, tries = decaying_seat(stakes, max_samples, allowed, counts, words)
    return {"seat": seat, "counts": counts, "tries": tries, "read": words.read}


@operation
def answer_reset(counts):
    return {"counts": reset_counts(counts)}


@operation
def answer_tree(stakes):
    counted = counted_weights(stakes)
    num_nodes, size = tree_shape(len(stakes))
    return {"num_nodes": num_nodes, "size": size, "sums": tree_sums(counted),
            "weight": sum(counted), "zeros": zero_positions(counted)}


@operation
def answer_sizes(count):
    return dict(zip(("num_nodes", "size"), tree_shape(count)))


@operation
def answer_shuffle(stakes, words, cursor=0, room=None, room_nodes=None):
    check_shuffle(stakes, room, room_nodes)
    words = words.past(cursor)
    return {"order": shuffle_order(stakes, words), "read": words.read}


@operation
def answer_turbine(stakes, fanout, own, words, cursor=0, room=None, room_nodes=None,
                   room_children=None):
    check_view(stakes, fanout, own, room, room_nodes, room_children)
    words = words.past(cursor)
    order = shuffle_order(stakes, words)
    root, parent, children = view(order, fanout, own)
    return {"root": root, "parent": "none" if parent is None else parent,
            "children": children, "read": words.read, "whole_order": order}


@operation
def answer_turbine_seed(slot, shred, room=None):
    refuse_if(7, is_short(room, SEED_BYTES))
    return {"bytes": list(b"ALPENGLOWTURBINE") + eight_bytes(slot) + eight_bytes(shred)}


@operation
def answer_rotor_seed(slot, slice, room=None):
    refuse_if(7, is_short(room, SEED_BYTES))
    return {"bytes": eight_bytes(slot) + eight_bytes(slice) + [0] * 16}


@operation
def answer_relay(seats, shred):
    """The seat at a shred position."""
    check_relay(seats, shred)
    return {"id": seats[shred]}


@operation
def answer_div_ceil(stake, divisor):
    return {"result": checked(-(-stake // divisor)) if divisor > 0 else "none"}


@operation
def answer_checked_add(stake, rhs):
    return {"result": checked(stake + rhs)}


@operation
def answer_sub(stake, rhs):
    return {"result": checked(stake - rhs)}


@operation
def answer_mul(stake, rhs):
    return {"result": checked(stake * rhs)}


@operation
def answer_sum(stakes):
    return {"result": checked(sum(stakes))}


@operation
def answer_stake_fmt(stake, room=None):
    return {"bytes": digits_within(room, stake)}


@operation
def answer_index_fmt(id, room=None):
    return {"bytes": digits_within(room, id)}


# ---- Cases and answers as lines ----

LIST_FIELDS = {"words", "words2", "weights", "list", "stakes", "counts", "seats"}


def bits_of(number):
    return struct.unpack("<Q", struct.pack("<d", number))[0]


def f64_of(bits):
    return struct.unpack("<d", struct.pack("<Q", bits))[0]


def read_field(name, text):
    """The value of a field, numbers and lists as they stand in the line."""
    if name not in LIST_FIELDS:
        return int(text)
    return [] if text == "-" else [int(number) for number in text.split(",")]


def read_case(line):
    """The operation of a case line and its fields."""
    operation_name, *fields = line.split()
    pairs = (field.split("=", 1) for field in fields)
    return operation_name, {name: read_field(name, text) for name, text in pairs}


def write_field(value):
    if isinstance(value, list):
        return ",".join(map(str, value)) or "-"
    return str(value)


def write_fields(head, fields):
    return " ".join([head] + [f"{name}={write_field(v)}" for name, v in fields.items()])


def argument(name, value):
    """A field as its operation takes it."""
    if name == "max_samples":
        return f64_of(value)
    if name in ("words", "words2"):
        return Words(value)
    return list(value) if isinstance(value, list) else value


def answer_fields(operation_name, fields):
    """The fields of the answer; raises Refused."""
    arguments = {name: argument(name, value) for name, value in fields.items()}
    return OPERATIONS[operation_name](**arguments)


def answer(line):
    try:
        return write_fields("ok", answer_fields(*read_case(line)))
    except Refused as refused:
        return f"refused {refused.number}"


def main():
    for line in sys.stdin:
        print(answer(line))


if __name__ == "__main__":
    main()
