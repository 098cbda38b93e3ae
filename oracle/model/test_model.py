#!/usr/bin/env python3
"""Tests of the model: the marked cases, the worked numbers, every refusal at
its limits, words running out, and properties over random inputs. And of the
stored lists: what limits.py names is in them."""

import math
import random
import re
import unittest

import model
import store
from limits import LIMITS, PIECE_ROOMS
from model import Refused, Words

TOP = 2**64 - 1
HALF = 2**63
MAX_COUNT = 4_294_967_295
SMALLEST = 5e-324


def ask(operation, **fields):
    """The answer's fields, or the number of the refusal."""
    if "max_samples" in fields:
        fields["max_samples"] = model.bits_of(fields["max_samples"])
    try:
        return model.answer_fields(operation, fields)
    except Refused as refused:
        return refused.number


def random_words(rng, n):
    return [rng.randrange(2**64) for _ in range(n)]


class Drawing(unittest.TestCase):
    def test_below_10(self):
        for word, value in ((13, 3), (18446744073709551609, 9), (0, 0)):
            self.assertEqual(ask("below", m=10, words=[word]), {"value": value, "read": 1})
        for word in (18446744073709551610, TOP):
            skipped = ask("below", m=10, words=[word, 13])
            self.assertEqual(skipped, {"value": 3, "read": 2})
            self.assertEqual(ask("below", m=10, words=[word]), 12)

    def test_below_1_reads_one_word(self):
        self.assertEqual(ask("below", m=1, words=[TOP, 5]), {"value": 0, "read": 1})
        self.assertEqual(ask("below", m=1, words=[]), 12)

    def test_below_a_power_of_two_skips_none(self):
        self.assertEqual(ask("below", m=16, words=[TOP]), {"value": 15, "read": 1})
        self.assertEqual(ask("below", m=HALF, words=[TOP]), {"value": HALF - 1, "read": 1})

    def test_below_past_half(self):
        for word, value in ((HALF, HALF), (HALF + 1, 4)):
            answer = ask("below", m=HALF + 1, words=[word, 4])
            self.assertEqual(answer["value"], value)
        self.assertEqual(ask("below", m=TOP, words=[TOP, 7]), {"value": 7, "read": 2})

    def test_fraction(self):
        for word, fraction in ((0, 0.0), (2**11 - 1, 0.0), (2**11, 2.0**-53),
                               (HALF, 0.5), (HALF - 1, 0.5 - 2.0**-53), (TOP, 1 - 2.0**-53)):
            answer = ask("fraction", words=[word])
            self.assertEqual(answer, {"bits": model.bits_of(fraction), "read": 1})
        self.assertEqual(ask("fraction", words=[]), 12)

    def test_weighted_draw_and_remainder(self):
        places = [ask("weighted", weights=[0, 2, 0, 3, 0], words=[v]) for v in range(5)]
        self.assertEqual([a["place"] for a in places], [1, 1, 3, 3, 3])
        self.assertEqual([a["remainder"] for a in places], [0, 1, 0, 1, 2])
        self.assertEqual(ask("weighted", weights=[1], words=[]), 12)

    def test_list_shuffle(self):
        answer = ask("list_shuffle", list=[7, 8, 9], words=[0, 2, 5])
        self.assertEqual(answer, {"list": [8, 7, 9], "read": 2})
        answer = ask("list_shuffle", list=[7, 8, 9], words=[1, 0])
        self.assertEqual(answer["list"], [9, 8, 7])
        for short in ([], [7]):
            self.assertEqual(ask("list_shuffle", list=short, words=[]), {"list": short, "read": 0})
        self.assertEqual(ask("list_shuffle", list=[7, 8, 9], words=[0]), 12)


class Fa1(unittest.TestCase):
    def test_49_stakes_of_1(self):
        answer = ask("fa1_bins", stakes=[1] * 49, k=49, words=[], words2=[])
        self.assertEqual(answer["seats"], list(range(49)))
        self.assertEqual((answer["further"], answer["read"], answer["read2"]), (0, 0, 0))
        self.assertEqual(answer["piece_bins"], [])

    def test_half_alone_with_k_2(self):
        answer = ask("fa1_draws", stakes=[HALF], k=2, words=[])
        self.assertEqual(answer, {"seats": [0, 0], "further": 0, "read": 0})

    def test_5_3_2_with_k_4(self):
        stakes = [5, 3, 2]
        fixed = model.fixed_seats(stakes, 4)
        self.assertEqual(fixed, [2, 1, 0])
        self.assertEqual(model.kept_stakes(stakes, fixed, 4), [0, 1, 2])
        for word, seat in ((0, 1), (1, 2), (2, 2)):
            # The words 1 and 2 swap each place with itself.
            answer = ask("fa1_bins", stakes=stakes, k=4, words=[1, 2], words2=[word])
            self.assertEqual(answer["seats"], [0, 0, 1, seat])
            self.assertEqual(answer["further"], 1)
            self.assertEqual((answer["piece_bins"], answer["piece_validators"],
                              answer["piece_stakes"]), ([0, 0], [1, 2], [1, 2]))
            self.assertEqual((answer["read"], answer["read2"]), (2, 1))

    def test_stake_of_exactly_a_seat(self):
        self.assertEqual(model.fixed_seats([1, 2, 1], 4), [1, 2, 1])
        self.assertEqual(model.fixed_seats([1, 2, 1], 3), [0, 1, 0])

    def test_draws_over_what_is_kept(self):
        for word, seat in ((0, 1), (1, 2), (2, 2), (3, 1)):
            answer = ask("fa1_draws", stakes=[5, 3, 2], k=4, words=[word])
            self.assertEqual(answer, {"seats": [0, 0, 1, seat], "further": 1, "read": 1})

    def test_empty_bin_of_further_seats(self):
        # Four stakes of 1 with k = 3: none fixed, 4 in 3.
        self.assertEqual(ask("fa1_bins", stakes=[1] * 4, k=3, words=[], words2=[]), 11)
        self.assertEqual(ask("fa1_draws", stakes=[1] * 4, k=3, words=[0, 1, 2])["further"], 3)

    def test_words_run_out(self):
        full = {"words": [1, 2], "words2": [0]}
        for name, words in full.items():
            for n in range(len(words)):
                short = {**full, name: words[:n]}
                self.assertEqual(ask("fa1_bins", stakes=[5, 3, 2], k=4, **short), 12)
        self.assertEqual(ask("fa1_draws", stakes=[5, 3, 2], k=4, words=[]), 12)

    def test_cursors(self):
        fields = {"stakes": [5, 3, 2], "k": 4, "words": [9, 1, 2], "words2": [9, 9, 0]}
        answer = ask("fa1_bins", **fields, cursor=1, cursor2=2)
        self.assertEqual((answer["seats"], answer["read"], answer["read2"]), ([0, 0, 1, 1], 2, 1))
        for cursors in ({"cursor": 2}, {"cursor": TOP}, {"cursor2": 3}, {"cursor2": TOP}):
            self.assertEqual(ask("fa1_bins", **fields, **cursors), 12)
        answer = ask("fa1_draws", stakes=[5, 3, 2], k=4, words=[9, 9, 0], cursor=2)
        self.assertEqual(answer, {"seats": [0, 0, 1, 1], "further": 1, "read": 1})
        for cursor in (3, 4, TOP):
            self.assertEqual(ask("fa1_draws", stakes=[5, 3, 2], k=4, words=[0] * 3,
                                 cursor=cursor), 12)
        self.assertEqual(ask("fa1_draws", stakes=[HALF], k=2, words=[], cursor=TOP)["read"], 0)


class Partition(unittest.TestCase):
    def piece_sums(self, stakes, bins):
        pieces = model.fill(range(len(stakes)), stakes, bins)
        return [sum(s for b, _, s in pieces if b == current) for current in range(bins)]

    def test_empty_bins(self):
        for total, bins in ((5, 4), (4, 3), (6, 4)):
            self.assertTrue(model.bin_would_be_empty(total, bins))
            self.assertEqual(self.piece_sums([1] * total, bins)[-1], 0)
            self.assertEqual(ask("partition", stakes=[total], bins=bins, words=[], words2=[]), 11)

    def test_short_last_bins(self):
        for total, bins, sums in ((5, 3, [2, 2, 1]), (7, 4, [2, 2, 2, 1])):
            self.assertFalse(model.bin_would_be_empty(total, bins))
            self.assertEqual(self.piece_sums([1] * total, bins), sums)
            self.assertEqual(self.piece_sums([total], bins), sums)
            answer = ask("partition", stakes=[total], bins=bins, words=[], words2=[0] * bins)
            self.assertEqual(answer["piece_stakes"], sums)
            self.assertEqual(answer["seats"], [0] * bins)

    def test_3_0_4_in_2_unshuffled(self):
        self.assertEqual(model.fill([0, 1, 2], [3, 0, 4], 2), [(0, 0, 3), (0, 2, 1), (1, 2, 3)])
        answer = ask("partition", stakes=[3, 0, 4], bins=2, words=[1, 2], words2=[3, 0])
        self.assertEqual(answer["seats"], [2, 2])
        self.assertEqual((answer["read"], answer["read2"]), (2, 2))

    def test_order_is_shuffled(self):
        # Word 0 swaps the two.
        answer = ask("partition", stakes=[1, 2], bins=1, words=[0], words2=[1])
        self.assertEqual((answer["piece_validators"], answer["piece_stakes"]), ([1, 0], [2, 1]))
        self.assertEqual(answer["seats"], [1])

    def test_last_draw_is_below_its_own_sum(self):
        # Bins 2, 2, 1: a draw below the capacity of 2 would take 1 from word 5.
        answer = ask("partition", stakes=[2, 2, 1], bins=3, words=[1, 2], words2=[0, 0, 5])
        self.assertEqual(answer["seats"], [0, 1, 2])

    def test_no_bins(self):
        nothing = {"seats": [], "piece_bins": [], "piece_validators": [],
                   "piece_stakes": [], "read": 0, "read2": 0}
        self.assertEqual(ask("partition", stakes=[3, 4], bins=0, words=[], words2=[]), nothing)
        for stakes, number in (([], 1), ([TOP, 1], 8), ([0, 0], 9)):
            self.assertEqual(ask("partition", stakes=stakes, bins=0, words=[], words2=[]), number)

    def test_words_run_out(self):
        full = {"words": [1, 2], "words2": [3, 0]}
        for name, words in full.items():
            for n in range(len(words)):
                short = {**full, name: words[:n]}
                self.assertEqual(ask("partition", stakes=[3, 0, 4], bins=2, **short), 12)

    def test_cursors(self):
        fields = {"stakes": [3, 0, 4], "bins": 2, "words": [0, 1, 2], "words2": [9, 9, 3, 0]}
        answer = ask("partition", **fields, cursor=1, cursor2=2)
        self.assertEqual((answer["seats"], answer["read"], answer["read2"]), ([2, 2], 2, 2))
        self.assertEqual(answer["piece_validators"], [0, 2, 2])
        for cursors in ({"cursor": 2}, {"cursor": TOP}, {"cursor2": 3}, {"cursor2": TOP}):
            self.assertEqual(ask("partition", **fields, **cursors), 12)
        fields["bins"] = 0
        self.assertEqual(ask("partition", **fields, cursor=TOP, cursor2=4)["seats"], [])


class Iid(unittest.TestCase):
    def test_seats(self):
        answer = ask("iid", stakes=[0, 2, 0, 3], k=3, words=[0, 1, 2, 3])
        self.assertEqual(answer, {"seats": [1, 1, 3], "read": 3})

    def test_no_seats(self):
        self.assertEqual(ask("iid", stakes=[1], k=0, words=[1]), {"seats": [], "read": 0})

    def test_words_run_out(self):
        for n in range(3):
            self.assertEqual(ask("iid", stakes=[1, 2], k=3, words=[0] * n), 12)

    def test_cursor(self):
        fields = {"stakes": [0, 2, 0, 3], "k": 2, "words": [9, 0, 3]}
        self.assertEqual(ask("iid", **fields, cursor=1), {"seats": [1, 3], "read": 2})
        for cursor in (2, 3, 4, TOP):
            self.assertEqual(ask("iid", **fields, cursor=cursor), 12)
        fields["k"] = 0
        self.assertEqual(ask("iid", **fields, cursor=TOP), {"seats": [], "read": 0})


class Decaying(unittest.TestCase):
    def one(self, count, max_samples, words, allowed=1):
        return ask("decaying_one", stakes=[1], max_samples=max_samples,
                   allowed=allowed, counts=[count], words=words)

    def test_count_1_of_2(self):
        accepted = {"seat": 0, "counts": [2], "tries": 1, "read": 2}
        self.assertEqual(self.one(1, 2.0, [0, HALF]), accepted)
        self.assertEqual(self.one(1, 2.0, [0, HALF - 1]), 13)

    def test_try_after_try(self):
        answer = self.one(1, 2.0, [0, HALF - 1, 0, 0, 0, HALF, 9], allowed=3)
        self.assertEqual(answer, {"seat": 0, "counts": [2], "tries": 3, "read": 6})
        self.assertEqual(self.one(1, 2.0, [0, 0, 0, 0], allowed=2), 13)
        self.assertEqual(self.one(1, 2.0, [0, 0, 0, 0], allowed=3), 12)

    def test_infinity_rejects_nothing(self):
        self.assertEqual(self.one(MAX_COUNT - 1, math.inf, [0, 0])["counts"], [MAX_COUNT])

    def test_count_at_max_samples_is_rejected(self):
        for count, max_samples in ((1, 1.0), (2, 1.5), (2, 2.0), (MAX_COUNT - 1, 4294967294.0)):
            self.assertEqual(self.one(count, max_samples, [0, TOP]), 13)
        self.assertEqual(self.one(1, 1.0000001, [0, TOP])["tries"], 1)

    def test_smallest_max_samples(self):
        self.assertEqual(self.one(0, SMALLEST, [0, 0])["counts"], [1])
        self.assertEqual(self.one(1, SMALLEST, [0, TOP]), 13)

    def committee(self, words, k=3, allowed=2):
        return ask("decaying", stakes=[1, 1], k=k, max_samples=2.0, allowed=allowed,
                   counts=[1, 0], words=words)

    def test_committee(self):
        # 0 is rejected at 1 of 2, then 1, then 0 at exactly a half, then 1 rejected, then 1.
        words = [0, 0, 1, 0, 0, HALF, 1, HALF - 1, 1, HALF]
        self.assertEqual(self.committee(words),
                         {"seats": [1, 0, 1], "counts": [0, 0], "tries": 5, "read": 10})
        for n in range(10):
            self.assertEqual(self.committee(words[:n]), 12)
        self.assertEqual(self.committee(words, allowed=1), 13)

    def test_cursor(self):
        fields = {"stakes": [1], "max_samples": 2.0, "allowed": 1, "counts": [1],
                  "words": [0, HALF - 1, 0, HALF]}
        self.assertEqual(ask("decaying_one", **fields, cursor=0), 13)
        answer = ask("decaying_one", **fields, cursor=2)
        self.assertEqual(answer, {"seat": 0, "counts": [2], "tries": 1, "read": 2})
        answer = ask("decaying", k=1, **fields, cursor=2)
        self.assertEqual(answer, {"seats": [0], "counts": [0], "tries": 1, "read": 2})
        for cursor in (3, 4, 5, TOP):
            self.assertEqual(ask("decaying", k=1, **fields, cursor=cursor), 12)
            self.assertEqual(ask("decaying_one", **fields, cursor=cursor), 12)

    def test_reset(self):
        self.assertEqual(model.reset_counts([3, 0, MAX_COUNT]), [0, 0, 0])
        self.assertEqual(model.reset_counts([]), [])

    def test_no_seats_leave_zeros(self):
        nothing = {"seats": [], "counts": [0, 0], "tries": 0, "read": 0}
        self.assertEqual(self.committee([], k=0), nothing)

    def test_allowance_is_per_seat(self):
        words = [0, 0, 1, 0, 0, 0, 1, HALF]
        self.assertEqual(self.committee(words, k=2)["tries"], 4)

    def test_counts_past_n_are_kept(self):
        answer = ask("decaying", stakes=[1], k=1, max_samples=2.0, allowed=1,
                     counts=[0, MAX_COUNT], words=[0, 0])
        self.assertEqual(answer["counts"], [0, MAX_COUNT])

    def test_words_run_out(self):
        for n in range(2):
            self.assertEqual(self.one(0, 1.0, [0] * n), 12)

    def test_allowance_at_its_limit(self):
        rejected = [0, 0] * 99_999
        answer = self.one(1, 2.0, rejected + [0, HALF], allowed=100_000)
        self.assertEqual((answer["tries"], answer["read"]), (100_000, 200_000))
        self.assertEqual(self.one(1, 2.0, rejected + [0, 0, 0, HALF], allowed=100_000), 13)
        self.assertEqual(self.one(1, 2.0, rejected + [0], allowed=100_000), 12)


class Tree(unittest.TestCase):
    def test_sizes(self):
        for n, shape in ((0, (1, 0)), (1, (1, 1)), (16, (1, 1)), (17, (17, 3)), (256, (17, 17)),
                         (257, (273, 34)), (4_096, (273, 273))):
            self.assertEqual(model.tree_shape(n), shape)

    def test_every_leaf_has_its_parent(self):
        for n in (1, 15, 16, 17, 18, 32, 33, 255, 256, 257, 272, 273, 4_095, 4_096):
            num_nodes, size = model.tree_shape(n)
            parents = {(num_nodes + p - 1) >> 4 for p in range(n)}
            self.assertEqual(max(parents) + 1, size)

    def test_no_weights(self):
        answer = ask("tree", stakes=[])
        self.assertEqual(answer, {"num_nodes": 1, "size": 0, "sums": [], "weight": 0, "zeros": []})

    def test_weight_past_the_top_counts_as_zero(self):
        answer = ask("tree", stakes=[TOP, 1, 0])
        self.assertEqual((answer["weight"], answer["zeros"]), (TOP, [1, 2]))
        self.assertEqual(answer["sums"], [TOP] + [0] * 15)
        later = ask("tree", stakes=[TOP - 1, 2, 1, 1])
        self.assertEqual((later["weight"], later["zeros"]), (TOP, [1, 3]))

    def test_sums_of_17(self):
        answer = ask("tree", stakes=list(range(1, 18)))
        self.assertEqual(answer["sums"],
                         [136, 17] + [0] * 14 + list(range(1, 17)) + [17] + [0] * 15)

    def test_sums_by_adding_each_weight_on_its_walk(self):
        rng = random.Random(1)
        for n in (1, 16, 17, 100, 256, 257, 300):
            stakes = [rng.randrange(100) for _ in range(n)]
            num_nodes, size = model.tree_shape(n)
            sums = [0] * (16 * size)
            for position, stake in enumerate(stakes):
                index = num_nodes + position
                while index > 0:
                    # The index less one is the parent's place times 16 and the place in it.
                    sums[index - 1] += stake
                    index = (index - 1) >> 4
            self.assertEqual(ask("tree", stakes=stakes)["sums"], sums)


class Shuffle(unittest.TestCase):
    def test_2_0_3(self):
        answer = ask("shuffle", stakes=[2, 0, 3], words=[4, 1, 0])
        self.assertEqual(answer, {"order": [2, 0, 1], "read": 3})
        for n in range(3):
            self.assertEqual(ask("shuffle", stakes=[2, 0, 3], words=[4, 1, 0][:n]), 12)

    def test_last_zero_moves_into_the_gap(self):
        answer = ask("shuffle", stakes=[0, 0, 0, 0], words=[0, 0, 1, 0])
        self.assertEqual(answer["order"], [0, 3, 1, 2])

    def test_overflowing_weights_come_with_the_zeros(self):
        answer = ask("shuffle", stakes=[TOP, 1, 0], words=[0, 1, 0])
        self.assertEqual(answer["order"], [0, 2, 1])

    def test_empty(self):
        self.assertEqual(ask("shuffle", stakes=[], words=[]), {"order": [], "read": 0})

    def test_cursor(self):
        whole = ask("shuffle", stakes=[2, 0, 3], words=[4, 1, 0])
        for before in ([], [9], [9, 9]):
            words, cursor = before + [4, 1, 0], len(before)
            self.assertEqual(ask("shuffle", stakes=[2, 0, 3], words=words, cursor=cursor), whole)
        for cursor in (1, 3, 4, TOP):
            self.assertEqual(ask("shuffle", stakes=[2, 0, 3], words=[4, 1, 0], cursor=cursor), 12)
        self.assertEqual(ask("shuffle", stakes=[], words=[], cursor=TOP)["read"], 0)

    def test_permutation(self):
        rng = random.Random(2)
        for _ in range(200):
            stakes = [rng.choice([0, 1, 2, 10**9, HALF]) for _ in range(rng.randrange(40))]
            answer = ask("shuffle", stakes=stakes, words=random_words(rng, 4 * len(stakes) + 40))
            self.assertEqual(sorted(answer["order"]), list(range(len(stakes))))
            zeros = model.zero_positions(model.counted_weights(stakes))
            self.assertEqual(sorted(answer["order"][len(stakes) - len(zeros):]), zeros)


class Turbine(unittest.TestCase):
    def test_2_0_3(self):
        answers = [ask("turbine", stakes=[2, 0, 3], fanout=2, own=own, words=[4, 1, 0])
                   for own in range(3)]
        same = {"root": 2, "read": 3, "whole_order": [2, 0, 1]}
        self.assertEqual(answers[2], {**same, "parent": "none", "children": [0, 1]})
        for own in (0, 1):
            self.assertEqual(answers[own], {**same, "parent": 2, "children": []})

    def test_fanout_1_is_a_chain(self):
        answer = ask("turbine", stakes=[2, 0, 3], fanout=1, own=0, words=[4, 1, 0])
        self.assertEqual((answer["parent"], answer["children"]), (2, [1]))

    def test_one_validator(self):
        for stake in (0, 5):
            answer = ask("turbine", stakes=[stake], fanout=200, own=0, words=[9])
            self.assertEqual(answer, {"root": 0, "parent": "none", "children": [], "read": 1,
                                      "whole_order": [0]})

    def test_words_run_out(self):
        for n in range(3):
            short = [4, 1, 0][:n]
            self.assertEqual(ask("turbine", stakes=[2, 0, 3], fanout=2, own=2, words=short), 12)

    def test_cursor(self):
        fields = {"stakes": [2, 0, 3], "fanout": 2, "own": 2}
        whole = ask("turbine", **fields, words=[4, 1, 0])
        for before in ([], [9], [9, 9]):
            words, cursor = before + [4, 1, 0], len(before)
            self.assertEqual(ask("turbine", **fields, words=words, cursor=cursor), whole)
        for cursor in (1, 3, 4, TOP):
            self.assertEqual(ask("turbine", **fields, words=[4, 1, 0], cursor=cursor), 12)

    def test_last_parent(self):
        # Word 0 draws the first that is left, so that the order is that of the list.
        views = [ask("turbine", stakes=[1] * 6, fanout=3, own=own, words=[0] * 6)
                 for own in range(6)]
        self.assertEqual([view["parent"] for view in views], ["none", 0, 0, 0, 1, 1])
        self.assertEqual([view["children"] for view in views], [[1, 2, 3], [4, 5], [], [], [], []])

    def test_views_agree(self):
        rng = random.Random(3)
        for _ in range(100):
            n, fanout = rng.randrange(1, 30), rng.choice([1, 2, 3, 16, 4_096])
            stakes = [rng.choice([0, 1, 5, 10**9]) for _ in range(n)]
            words = random_words(rng, 3 * n)
            views = [ask("turbine", stakes=stakes, fanout=fanout, own=own, words=words)
                     for own in range(n)]
            self.check_views(views)

    def check_views(self, views):
        root = views[0]["root"]
        self.assertEqual([v["root"] for v in views], [root] * len(views))
        self.assertEqual([i for i, v in enumerate(views) if v["parent"] == "none"], [root])
        for j, of_j in enumerate(views):
            named_by = [i for i, v in enumerate(views) if v["parent"] == j]
            self.assertEqual(sorted(of_j["children"]), named_by)
            self.assertNotIn(j, of_j["children"])


class Seeds(unittest.TestCase):
    def test_turbine(self):
        answer = ask("turbine_seed", slot=258, shred=TOP)
        self.assertEqual(bytes(answer["bytes"]),
                         b"ALPENGLOWTURBINE" + b"\0\0\0\0\0\0\1\2" + b"\xff" * 8)

    def test_rotor(self):
        answer = ask("rotor_seed", slot=2**56 + 7, slice=9)
        self.assertEqual(bytes(answer["bytes"]),
                         b"\1\0\0\0\0\0\0\7" + b"\0\0\0\0\0\0\0\x09" + b"\0" * 16)


class Relays(unittest.TestCase):
    def test_seat_at_the_position(self):
        for shred, seat in enumerate([7, 3, 7]):
            self.assertEqual(ask("relay", seats=[7, 3, 7], shred=shred), {"id": seat})

    def test_2_before_6(self):
        for number in (1, 1_024):
            self.assertEqual(ask("relay", seats=[5] * number, shred=number - 1), {"id": 5})
            for shred in (number, number + 1, TOP):
                self.assertEqual(ask("relay", seats=[5] * number, shred=shred), 6)
        for shred in (0, 1_024, 1_025):
            self.assertEqual(ask("relay", seats=[5] * 1_025, shred=shred), 2)
        self.assertEqual(ask("relay", seats=[], shred=0), 6)


class Refusals(unittest.TestCase):
    """Each number at its limits, and the lowest that applies."""

    SAMPLERS = {
        "iid": {"k": 1, "words": [0] * 5_000},
        "partition": {"bins": 1, "words": [0] * 5_000, "words2": [0] * 2_000},
        "fa1_bins": {"k": 1, "words": [0] * 5_000, "words2": [0] * 2_000},
        "fa1_draws": {"k": 1, "words": [0]},
        "decaying": {"k": 1, "max_samples": 1.0, "allowed": 1, "words": [0] * 5_000},
        "decaying_one": {"max_samples": 1.0, "allowed": 1, "words": [0] * 5_000},
    }
    SIZES = {"iid": "k", "partition": "bins", "fa1_bins": "k", "fa1_draws": "k", "decaying": "k"}
    DECAYING = ("decaying", "decaying_one")

    def call(self, operation, stakes, **fields):
        fields = {**self.SAMPLERS[operation], **fields}
        if operation in self.DECAYING:
            fields.setdefault("counts", [0] * len(stakes))
        return ask(operation, stakes=stakes, **fields)

    def assertAccepted(self, answer):
        self.assertIsInstance(answer, dict)

    def test_1_list(self):
        for operation in self.SAMPLERS:
            self.assertEqual(self.call(operation, []), 1)
            self.assertAccepted(self.call(operation, [1] * 4_096))
            self.assertEqual(self.call(operation, [1] * 4_097), 1)

    def test_1_shuffle_and_view(self):
        # Zeros, so that no order takes long.
        words = [0] * 4_097
        self.assertAccepted(ask("shuffle", stakes=[0] * 4_096, words=words))
        self.assertEqual(ask("shuffle", stakes=[0] * 4_097, words=words), 1)
        view = {"fanout": 200, "own": 0, "words": words}
        self.assertAccepted(ask("turbine", stakes=[0] * 4_096, **view))
        for n in (0, 4_097):
            self.assertEqual(ask("turbine", stakes=[0] * n, **view), 1)

    def test_2_size(self):
        for operation, size in self.SIZES.items():
            more = {"max_samples": math.inf} if operation == "decaying" else {}
            self.assertAccepted(self.call(operation, [2_048], **{size: 1_024}, **more))
            self.assertEqual(self.call(operation, [2_048], **{size: 1_025}, **more), 2)

    def test_2_no_seats(self):
        for operation, size in self.SIZES.items():
            answer = self.call(operation, [1, 2], **{size: 0})
            if operation.startswith("fa1"):
                self.assertEqual(answer, 2)
            else:
                self.assertEqual(answer["seats"], [])

    def test_3_tries(self):
        for operation in self.DECAYING:
            for allowed in (1, 100_000):
                self.assertAccepted(self.call(operation, [1], allowed=allowed))
            for allowed in (0, 100_001):
                self.assertEqual(self.call(operation, [1], allowed=allowed), 3)

    def test_4_max_samples(self):
        for operation in self.DECAYING:
            for max_samples in (SMALLEST, 1.0, math.inf):
                self.assertAccepted(self.call(operation, [1], max_samples=max_samples))
            for max_samples in (math.nan, 0.0, -0.0, -SMALLEST, -1.0, -math.inf):
                self.assertEqual(self.call(operation, [1], max_samples=max_samples), 4)

    def test_5_fanout(self):
        for fanout in (1, 4_096):
            self.assertAccepted(ask("turbine", stakes=[1], fanout=fanout, own=0, words=[0]))
        for fanout in (0, 4_097):
            self.assertEqual(ask("turbine", stakes=[1], fanout=fanout, own=0, words=[0]), 5)

    def test_6_own_id(self):
        words = [0, 0]
        self.assertAccepted(ask("turbine", stakes=[1, 1], fanout=1, own=1, words=words))
        for own in (2, TOP):
            self.assertEqual(ask("turbine", stakes=[1, 1], fanout=1, own=own, words=words), 6)

    def test_7_room(self):
        for operation in ("iid", "decaying"):
            for k in (1, 3, 1_024):
                more = {"k": k, "words": [0] * 2_048}
                more.update({"max_samples": math.inf} if operation == "decaying" else {})
                for room in (k, k + 1):
                    self.assertAccepted(self.call(operation, [1, 2], room=room, **more))
                for room in (0, k - 1):
                    self.assertEqual(self.call(operation, [1, 2], room=room, **more), 7)
            self.assertAccepted(self.call(operation, [1, 2], k=0, room=0))

    def test_7_room_over_bins(self):
        for operation, size in (("partition", "bins"), ("fa1_bins", "k"), ("fa1_draws", "k")):
            for room in (2, 3):
                self.assertAccepted(self.call(operation, [1, 2], **{size: 2}, room=room))
            for room in (0, 1):
                self.assertEqual(self.call(operation, [1, 2], **{size: 2}, room=room), 7)
        self.assertAccepted(self.call("partition", [1, 2], bins=0, room=0))

    def test_7_pieces(self):
        for operation, size in (("partition", "bins"), ("fa1_bins", "k")):
            for name in PIECE_ROOMS:
                # Two stakes, and two bins or seats.
                for places in (4, 5, 9):
                    self.assertAccepted(self.call(operation, [1, 2], **{size: 2, name: places}))
                for places in (0, 3):
                    self.assertEqual(self.call(operation, [1, 2], **{size: 2, name: places}), 7)
        no_places = dict.fromkeys(PIECE_ROOMS, 0)
        self.assertAccepted(self.call("partition", [1, 2], bins=0, **no_places))

    def test_7_order_and_nodes(self):
        for n, nodes in ((0, 0), (1, 1), (16, 1), (17, 3), (257, 34), (4_096, 273)):
            stakes, words = [0] * n, [0] * n
            for more in (0, 1):
                self.assertAccepted(ask("shuffle", stakes=stakes, words=words, room=n + more))
                model.check_shuffle(stakes, n + more, nodes + more)
            if n > 0:
                self.assertEqual(ask("shuffle", stakes=stakes, words=words, room=n - 1), 7)
                for room, room_nodes in ((n - 1, nodes), (n, nodes - 1)):
                    with self.assertRaises(Refused) as refused:
                        model.check_shuffle(stakes, room, room_nodes)
                    self.assertEqual(refused.exception.number, 7)

    def test_7_view(self):
        for n, fanout, needed in ((1, 1, (1, 1, 1)), (17, 2, (17, 3, 2)), (16, 17, (16, 1, 16)),
                                  (257, 257, (257, 34, 257)), (4_096, 200, (4_096, 273, 200))):
            view = {"stakes": [0] * n, "fanout": fanout, "own": 0, "words": [0] * n}
            for name, places in zip(("room", "room_nodes", "room_children"), needed):
                for more in (0, 1):
                    self.assertAccepted(ask("turbine", **view, **{name: places + more}))
                for few in (0, places - 1):
                    self.assertEqual(ask("turbine", **view, **{name: few}), 7)

    def test_7_seeds(self):
        for operation, second in (("turbine_seed", "shred"), ("rotor_seed", "slice")):
            for room in (32, 33):
                self.assertAccepted(ask(operation, slot=1, **{second: 2}, room=room))
            for room in (0, 31):
                self.assertEqual(ask(operation, slot=1, **{second: 2}, room=room), 7)

    def test_7_counts(self):
        for operation in self.DECAYING:
            for counts in ([0, 0], [0, 0, MAX_COUNT]):
                self.assertAccepted(self.call(operation, [1, 2], counts=counts))
            for counts in ([], [0], [MAX_COUNT]):
                self.assertEqual(self.call(operation, [1, 2], counts=counts), 7)

    def test_7_is_before_8_and_9(self):
        for stakes in ([TOP, 1], [0, 0]):
            for operation in self.SIZES:
                self.assertEqual(self.call(operation, stakes, room=0), 7)
            for operation in ("partition", "fa1_bins"):
                for name in PIECE_ROOMS:
                    self.assertEqual(self.call(operation, stakes, **{name: 2}), 7)
            for operation in self.DECAYING:
                self.assertEqual(self.call(operation, stakes, counts=[0]), 7)

    def test_8_sum(self):
        for operation in self.SAMPLERS:
            self.assertAccepted(self.call(operation, [TOP - 1, 1]))
            for stakes in ([TOP, 1], [HALF, HALF], [TOP, TOP]):
                self.assertEqual(self.call(operation, stakes), 8)

    def test_9_total(self):
        for operation in self.SAMPLERS:
            self.assertEqual(self.call(operation, [0, 0]), 9)
            self.assertAccepted(self.call(operation, [0, 1]))

    def test_10_counts(self):
        more = {"max_samples": math.inf, "words": [0] * 2_048}
        for k in (1, 2, 1_024):
            at = [0, MAX_COUNT - k]
            over = [0, MAX_COUNT - k + 1]
            self.assertAccepted(self.call("decaying", [1, 1], k=k, counts=at, **more))
            self.assertEqual(self.call("decaying", [1, 1], k=k, counts=over, **more), 10)
        self.assertAccepted(self.call("decaying", [1], k=0, counts=[MAX_COUNT], **more))
        self.assertAccepted(self.call("decaying_one", [1], counts=[MAX_COUNT - 1], **more))
        self.assertEqual(self.call("decaying_one", [1], counts=[MAX_COUNT], **more), 10)

    def test_lowest_of_samplers(self):
        for operation in self.SAMPLERS:
            nothing = {"words": []}
            if operation in self.SIZES:
                size = {self.SIZES[operation]: 1_025}
                self.assertEqual(self.call(operation, [], **size, **nothing), 1)
                self.assertEqual(self.call(operation, [0], **size, **nothing), 2)
            self.assertEqual(self.call(operation, [0], **nothing), 9)
        self.assertEqual(self.call("partition", [5], bins=4, words=[], words2=[]), 11)

    def test_lowest_over_bins(self):
        faults = [(1, {"stakes": []}), (2, {"bins": 1_025}), (7, {"room_stakes": 3}),
                  (9, {"stakes": [0]}), (11, {"bins": 4}), (12, {"words2": []})]
        case = {"stakes": [5], "bins": 3, "words": [], "words2": [0, 0, 0], "room": 1_025,
                "room_bins": 1_026, "room_validators": 1_026, "room_stakes": 1_026}
        self.assertAccepted(ask("partition", **case))
        for number, fault in reversed(faults):
            case.update(fault)
            self.assertEqual(ask("partition", **case), number)

    def test_lowest_of_decaying(self):
        faults = [(2, {"k": 1_025}), (3, {"allowed": 0}), (4, {"max_samples": 0.0}),
                  (7, {"room": 0}), (9, {"stakes": [0]}), (10, {"counts": [MAX_COUNT]}),
                  (12, {"words": []})]
        case = {"stakes": [1], "k": 1, "max_samples": 1.0, "allowed": 1,
                "counts": [0], "words": [0, 0]}
        self.assertAccepted(ask("decaying", **case))
        for number, fault in reversed(faults):
            case.update(fault)
            self.assertEqual(ask("decaying", **case), number)

    def test_lowest_of_shuffle(self):
        case = {"stakes": [1], "words": [0], "room": 4_096}
        self.assertAccepted(ask("shuffle", **case))
        for number, fault in ((12, {"words": []}), (7, {"room": 0}), (1, {"stakes": [1] * 4_097})):
            case.update(fault)
            self.assertEqual(ask("shuffle", **case), number)

    def test_lowest_of_view(self):
        case = {"stakes": [1], "fanout": 1, "own": 0, "words": [0], "room": 1, "room_nodes": 1,
                "room_children": 1}
        self.assertAccepted(ask("turbine", **case))
        for number, fault in ((12, {"words": []}), (7, {"room_children": 0}), (6, {"own": 1}),
                              (5, {"fanout": 0}), (1, {"stakes": []})):
            case.update(fault)
            self.assertEqual(ask("turbine", **case), number)


class Properties(unittest.TestCase):
    def random_stakes(self, rng):
        shape = rng.randrange(4)
        n = rng.randrange(1, 20)
        if shape == 0:
            return [rng.randrange(1, 5)] * n
        if shape == 1:
            return [rng.choice([0, 1, 2, 3]) for _ in range(n)] + [1]
        if shape == 2:
            return [int(10**6 * rng.paretovariate(1)) for _ in range(n)]
        return [rng.randrange(TOP // n) for _ in range(n)]

    def test_fa1_over_bins(self):
        rng = random.Random(4)
        accepted = 0
        for _ in range(2_000):
            stakes, k = self.random_stakes(rng), rng.randrange(1, 30)
            words = random_words(rng, 4 * len(stakes) + 20)
            answer = ask("fa1_bins", stakes=stakes, k=k, words=words,
                         words2=random_words(rng, 4 * k + 40))
            if answer != 11:
                accepted += 1
                self.check_committee(stakes, k, answer)
        self.assertGreater(accepted, 1_000)

    def check_committee(self, stakes, k, answer):
        total = sum(stakes)
        self.assertEqual(len(answer["seats"]), k)
        for validator, stake in enumerate(stakes):
            held = answer["seats"].count(validator)
            floor = stake * k // total
            self.assertTrue(floor <= held <= floor + 2, (stakes, k, validator))
            piece_sum = sum(piece for v, piece in zip(answer["piece_validators"],
                                                      answer["piece_stakes"]) if v == validator)
            self.assertEqual(piece_sum, stake - floor * total // k)
        if answer["further"] == 0:
            self.assertEqual((answer["piece_bins"], answer["read"], answer["read2"]), ([], 0, 0))
        self.assertEqual(sorted(set(answer["piece_bins"])), list(range(answer["further"])))

    def test_nothing_kept_exactly_without_further_seats(self):
        rng = random.Random(5)
        for _ in range(2_000):
            stakes, k = self.random_stakes(rng), rng.randrange(1, 60)
            if sum(stakes) > 0:
                _, further, kept = model.fa1_fixed(stakes, k)
                self.assertEqual(sum(kept) == 0, further == 0)
                self.assertGreaterEqual(min(kept), 0)

    def test_partition(self):
        rng = random.Random(6)
        for _ in range(1_000):
            stakes, bins = self.random_stakes(rng), rng.randrange(1, 12)
            words = Words(random_words(rng, 4 * len(stakes) + 20))
            order = model.list_shuffle(range(len(stakes)), words)
            self.assertEqual(sorted(order), list(range(len(stakes))))
            self.check_fill(stakes, bins, model.fill(order, stakes, bins))

    def check_fill(self, stakes, bins, pieces):
        total = sum(stakes)
        for validator, stake in enumerate(stakes):
            self.assertEqual(sum(s for _, v, s in pieces if v == validator), stake)
        self.assertEqual(len({(b, v) for b, v, _ in pieces}), len(pieces))
        self.assertTrue(all(s > 0 for _, _, s in pieces))
        used = {b for b, _, _ in pieces}
        self.assertEqual(len(used) < bins, model.bin_would_be_empty(total, bins))
        self.assertTrue(used <= set(range(bins)))
        for b in range(max(used, default=0)):
            self.assertEqual(sum(s for c, _, s in pieces if c == b), -(-total // bins))

    def test_list_shuffle_keeps_its_items(self):
        rng = random.Random(7)
        for _ in range(200):
            items = [rng.randrange(5) for _ in range(rng.randrange(30))]
            shuffled = model.list_shuffle(items, Words(random_words(rng, 60)))
            self.assertEqual(sorted(shuffled), sorted(items))

    def test_decaying_words_tries_and_counts(self):
        rng = random.Random(8)
        for _ in range(500):
            n = rng.randrange(1, 6)
            stakes = [2**rng.randrange(3) for _ in range(n)]
            stakes[0] += 2**10 - sum(stakes)  # a power of two, so that no word is skipped
            counts = [rng.randrange(3) for _ in range(n)]
            answer = ask("decaying_one", stakes=stakes, max_samples=rng.choice([2.5, 3.0, 9.0]),
                         allowed=100_000, counts=counts, words=random_words(rng, 400))
            self.assertEqual(answer["read"], 2 * answer["tries"])
            raised = [new - old for new, old in zip(answer["counts"], counts)]
            self.assertEqual(raised, [int(v == answer["seat"]) for v in range(n)])


class Stakes(unittest.TestCase):
    def result(self, operation, **fields):
        return ask(operation, **fields)["result"]

    def test_div_ceil(self):
        for stake, divisor, result in ((0, 5, 0), (7, 2, 4), (8, 2, 4), (TOP, 1, TOP), (TOP, 2, HALF),
                                       (TOP, TOP, 1), (1, TOP, 1), (0, 0, "none"), (7, 0, "none")):
            self.assertEqual(self.result("div_ceil", stake=stake, divisor=divisor), result)

    def test_results_that_just_fit_and_do_not(self):
        for operation, stake, rhs, result in (
                ("checked_add", TOP - 1, 1, TOP), ("checked_add", TOP, 1, "none"),
                ("sub", 3, 3, 0), ("sub", 2, 3, "none"), ("sub", TOP, TOP - 1, 1),
                ("mul", 2**32 - 1, 2**32 + 1, TOP), ("mul", 2**32, 2**32, "none"),
                ("mul", TOP, 0, 0)):
            self.assertEqual(self.result(operation, stake=stake, rhs=rhs), result)
        for stakes, result in (([], 0), ([TOP, 0], TOP), ([HALF, HALF - 1], TOP),
                               ([HALF, HALF], "none"), ([TOP, 1, 0], "none")):
            self.assertEqual(self.result("sum", stakes=stakes), result)

    def test_digits(self):
        for number, digits in ((0, b"0"), (10, b"10"), (TOP, b"18446744073709551615")):
            self.assertEqual(ask("stake_fmt", stake=number), {"bytes": list(digits)})
            self.assertEqual(ask("index_fmt", id=number), {"bytes": list(digits)})
            self.assertEqual(ask("stake_fmt", stake=number, room=len(digits))["bytes"], list(digits))
            self.assertEqual(ask("stake_fmt", stake=number, room=len(digits) - 1)["bytes"], "none")


class Lines(unittest.TestCase):
    def test_answers(self):
        for line, answer in (
                ("below m=10 words=18446744073709551610,13", "ok value=3 read=2"),
                ("below m=10 words=-", "refused 12"),
                ("weighted weights=0,2,3 words=4", "ok place=2 remainder=2 read=1"),
                ("iid stakes=1 k=0 words=-", "ok seats=- read=0"),
                ("turbine stakes=2,0,3 fanout=2 own=2 words=4,1,0",
                 "ok root=2 parent=none children=0,1 read=3 whole_order=2,0,1"),
                (f"decaying_one stakes=1 max_samples={model.bits_of(2.0)} allowed=1 counts=1 "
                 f"words=0,{HALF}", "ok seat=0 counts=2 tries=1 read=2"),
                ("shuffle stakes=- words=-", "ok order=- read=0"),
                ("relay seats=7,3,7 shred=1", "ok id=3"),
                ("relay seats=- shred=0", "refused 6")):
            self.assertEqual(model.answer(line + "\n"), answer)

    def test_all_operations(self):
        self.assertEqual(" ".join(model.OPERATIONS),
                         "below fraction weighted list_shuffle iid partition fa1_bins fa1_draws "
                         "decaying decaying_one reset tree sizes shuffle turbine turbine_seed "
                         "rotor_seed relay div_ceil checked_add sub mul sum stake_fmt index_fmt")


class StoredLists(unittest.TestCase):
    """The lists as they are stored in crates/."""

    REFUSALS = {
        "stake_weighted_cases": {"sample": {1, 8, 9, 12}, "sample_quorum": {1, 2, 7, 8, 9, 12}},
        "decaying_acceptance_cases": {"sample_one": {1, 3, 4, 7, 8, 9, 10, 12, 13},
                                      "sample_quorum": {1, 2, 3, 4, 7, 8, 9, 10, 12, 13},
                                      "reset": set()},
        "partition_cases": {"sample_quorum": {1, 2, 7, 8, 9, 11, 12}},
        "fait_accompli_cases": {"partition_fallback": {1, 2, 7, 8, 9, 11, 12},
                                "stake_weighted_fallback": {1, 2, 7, 8, 9, 12}},
        "weighted_shuffle_cases": {"get_num_nodes_and_tree_size": set(), "begin": {1, 7},
                                   "shuffle": {1, 7, 12}},
        "turbine_cases": {"view": {1, 5, 6, 7, 12}, "turbine_seed": {7}, "rotor_seed": {7},
                          "relay": {2, 6}},
    }

    def lines(self, program):
        return (store.CRATES / program / "stdin").read_text().splitlines(keepends=True)

    def by_function(self):
        """Each program, its function and the function's stored cases."""
        for program, functions in LIMITS.items():
            stored = [store.read_line(line) for line in self.lines(program)]
            for function in functions:
                yield program, function, [case for name, case in stored if name == function]

    def test_every_limit_is_stored(self):
        for program, function, own in self.by_function():
            for limit, holds in LIMITS[program][function].items():
                with self.subTest(program=program, function=function, limit=limit):
                    self.assertTrue(any(map(holds, own)))

    def test_every_refusal_is_stored(self):
        for program, function, own in self.by_function():
            numbers = self.REFUSALS[program][function]
            with self.subTest(program=program, function=function):
                self.assertEqual({case.refusal for case in own} - {0}, numbers)

    def test_lines_are_read_as_they_were_written(self):
        for program in LIMITS:
            for line in self.lines(program):
                self.assertEqual(store.stored_line(program, *store.read_line(line)), line)

    def test_programs_have_room(self):
        for program in store.PROGRAMS:
            source = (store.CRATES / program / "src" / "main.rt").read_text()
            room = int(re.search(r"^const ROOM: usize = (\d+);$", source, re.MULTILINE)[1])
            self.assertLess(sum(map(len, self.lines(program))), room)


if __name__ == "__main__":
    unittest.main()
