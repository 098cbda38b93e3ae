#!/usr/bin/env python3
"""`compare.py ORACLE N`: the model and the oracle's binary over about N cases and
the stored cases, but for those of the draws.

A difference is explained if the condition of a known kind holds of the case and
the oracle's answer is the one that the known kinds, taken together, lead to.
Ends with 1 if a difference is unexplained, if a known kind has no entry in
docs/DIFFERENCES.md or, from 20,000 cases on, if a known kind never showed.
"""

import math
import subprocess
import sys
from collections import Counter
from contextlib import contextmanager
from fractions import Fraction
from pathlib import Path
from typing import Callable, NamedTuple
from unittest.mock import patch

import model
from cases import cases
from model import MAX_COUNT, MAX_FANOUT, MAX_LIST, MAX_SEATS, MAX_TRIES, WORD_END, Words
from store import compared_lines

ALL_KINDS_FROM = 20_000
TOTAL_SHREDS = 64
DIFFERENCES = Path(__file__).resolve().parents[2] / "docs" / "DIFFERENCES.md"
DECAYING = {"decaying", "decaying_one"}
FA1 = {"fa1_bins", "fa1_draws"}
OWN_SUMS = FA1 | {"partition"}
SAMPLERS = OWN_SUMS | DECAYING | {"iid"}
NEW_TO_THE_RUST = {"remainder", "whole_order"}


class Case:
    """A case with the numbers that the conditions speak of."""

    def __init__(self, line):
        self.line = line
        self.operation, self.fields = model.read_case(line)
        self.stakes = self.fields.get("stakes", [])
        self.total = sum(self.stakes)
        self.samples = self.operation in SAMPLERS
        self.fa1 = self.operation in FA1
        relay = self.operation == "relay"
        # Seats or bins; a single seat for the rest.
        seats = len(self.fields["seats"]) if relay else 1
        self.size = self.fields.get("k", self.fields.get("bins", seats))
        # The position of a seat; the first for the rest.
        self.position = self.fields["shred"] if relay else 0
        self.fanout = self.fields.get("fanout", 1)
        self.allowed = self.fields.get("allowed", MAX_TRIES)

    def has_fa1_seats(self):
        return self.fa1 and self.size > 0 and 0 < self.total < WORD_END


# ---- Known kinds of difference; their conditions do not rest on the model's rules ----

class Kind(NamedTuple):
    name: str
    reason: str
    condition: Callable[[Case], bool]


def max_samples_refused(case):
    return case.operation in DECAYING and not model.f64_of(case.fields["max_samples"]) > 0


def counts_at_limit(case):
    return any(count > MAX_COUNT - case.size for count in case.fields.get("counts", []))


def no_bins_over_refused_list(case):
    return (case.operation == "partition" and case.size == 0
            and not (case.stakes and 0 < case.total < WORD_END))


def exact_floors(case):
    return [math.floor(Fraction(s * case.size, case.total)) for s in case.stakes]


def last_bin_empty(total, bins):
    return bins > 0 and math.ceil(Fraction(total, bins)) * (bins - 1) >= total


def empty_bin(case):
    if case.operation == "partition":
        return last_bin_empty(case.total, case.size)
    if case.operation != "fa1_bins" or not case.has_fa1_seats():
        return False
    fixed = exact_floors(case)
    taken = sum(math.floor(Fraction(f * case.total, case.size)) for f in fixed)
    return last_bin_empty(case.total - taken, case.size - sum(fixed))


def floors_differ(case):
    return (case.has_fa1_seats()
            and exact_floors(case) != rust_fixed_seats(case.stakes, case.size))


def no_stake(case):
    """Whether no stake is the result of arithmetic that is not checked in the Rust."""
    fields = case.fields
    if case.operation == "div_ceil":
        return fields["divisor"] == 0
    if case.operation == "sub":
        return fields["stake"] < fields["rhs"]
    past = {"mul": lambda: fields["stake"] * fields["rhs"], "sum": lambda: case.total}
    return case.operation in past and past[case.operation]() >= WORD_END


def product_wraps(case):
    return (case.has_fa1_seats() and
            max(rust_fixed_seats(case.stakes, case.size)) * case.total >= WORD_END)


KINDS = (
    Kind("tries allowed",
         '"3: tries allowed per seat 0 or over 100,000 (the Rust\'s 100,000 is compared)": '
         "any other allowance cannot be asked there.",
         lambda case: case.allowed != MAX_TRIES),
    Kind("list over 4,096",
         '"1: list over 4,096" is a limit here alone.',
         lambda case: len(case.stakes) > MAX_LIST),
    Kind("k or bins over 1,024",
         '"2: k or b over 1,024" is a limit here alone.',
         lambda case: case.size > MAX_SEATS),
    Kind("fanout over 4,096",
         '"5: fanout 0 or over 4,096": the upper limit is here alone.',
         lambda case: case.fanout > MAX_FANOUT),
    Kind("bins 0",
         '"Bins 0 give an empty partition there before the list is looked at; here 1, 8 and 9 '
         'are checked first".',
         no_bins_over_refused_list),
    Kind("empty list of a sampler",
         '"`StakeWeightedSampler::new` above them refuses more (empty list, zero or overflowing '
         'total)": it panics where one is made; refusal 1 here.',
         lambda case: case.samples and not case.stakes),
    Kind("empty list of a view",
         '"1: list over 4,096, or empty (the shuffle takes an empty one)": a view of nothing '
         "panics there.",
         lambda case: case.operation == "turbine" and not case.stakes),
    Kind("k = 0 for FA1",
         '"2: k or b over 1,024, or k = 0 for FA1": the Rust divides by k.',
         lambda case: case.fa1 and case.size == 0),
    Kind("max_samples",
         '"NaN, zero and below are refused."; there they are divided by.',
         max_samples_refused),
    Kind("fanout 0",
         '"Fanout 0 divides by zero there."',
         lambda case: case.fanout == 0),
    Kind("own id not in the list",
         '"6: own id not below n": it panics there, once the list is shuffled.',
         lambda case: case.operation == "turbine" and case.fields["own"] >= len(case.stakes)),
    Kind("shred position of 64 or more",
         "k may be up to 1,024 here; there is no such `ShredIndex` in the Rust, whose committees "
         "have 64 seats.",
         lambda case: case.position >= TOTAL_SHREDS),
    Kind("shred position not below k",
         '"A shred position at or past k indexes out there; refused here."',
         lambda case: case.operation == "relay" and case.position >= case.size),
    Kind("sum past 2^64 - 1",
         '"8: stakes sum past 2^64 - 1": it wraps or panics there.',
         lambda case: case.samples and case.total >= WORD_END),
    Kind("all stakes zero",
         '"9: total 0": it panics there.',
         lambda case: case.samples and case.total == 0),
    Kind("stored counts at the limit",
         '"`Mutex<Vec<usize>>`: a lent slice of u32 counts", hence 10; usize does not end there.',
         counts_at_limit),
    Kind("empty bin",
         '"Totals 5 in 4, 4 in 3 and 6 in 4 leave the last bin empty, a panic there and '
         'refusal 11 here."',
         empty_bin),
    Kind("FA1 floors",
         '"The Rust takes the floor of a rounded f64 product." and "The exact floor decides".',
         floors_differ),
    Kind("samples * total_stake wraps",
         '"`samples * total_stake` may pass 64 bits".',
         product_wraps),
    Kind("CheckedStake::None",
         "arithmetic that has no stake as its result wraps there, or panics for a divisor of 0.",
         no_stake),
)


# ---- The model with the Rust's way at each known kind ----

class Unpredicted(Exception):
    """Sums wrap: the Rust may answer anything, panic or not end."""


class DividingF64(float):
    """A divisor that may be zero, as in f64."""

    def __rtruediv__(self, count):
        if self != 0:
            return count / float(self)
        return math.nan if count == 0 else math.copysign(math.inf, self)


def rust_fixed_seats(stakes, k):
    total = float(sum(stakes))
    return [math.floor(float(s) / total * float(k)) if total else 0 for s in stakes]


def rust_kept_stakes(stakes, fixed, k):
    total = sum(stakes)
    kept = [(s - f * total % WORD_END // k) % WORD_END for s, f in zip(stakes, fixed)]
    if sum(kept) >= WORD_END:
        raise Unpredicted
    return kept


def rust_partition_seats(stakes, bins, words, words2, exact=model.partition_seats):
    """The list is shuffled before an empty bin is met."""
    if bins > 0:
        model.list_shuffle(stakes, Words(words.words))
    return exact(stakes, bins, words, words2)


def rust_refuse_if(lifted, exact=model.refuse_if):
    return lambda number, applies: exact(number, applies and number not in lifted)


@contextmanager
def rust_ways(case):
    """The limits of ours are lifted; FA1 and the partition take any total, and arithmetic wraps."""
    lifted = {1, 2, 4, 5, 6, 10} | ({8, 9} if case.operation in OWN_SUMS else set())
    with patch.multiple(model, refuse_if=rust_refuse_if(lifted), fixed_seats=rust_fixed_seats,
                        kept_stakes=rust_kept_stakes, partition_seats=rust_partition_seats,
                        checked=lambda number: number % WORD_END,
                        f64_of=lambda bits, exact=model.f64_of: DividingF64(exact(bits))):
        yield


def predicted(case):
    """The oracle's answer by the known kinds, or None if sums wrap."""
    if case.allowed != MAX_TRIES or case.position >= TOTAL_SHREDS:
        # It cannot be asked there.
        return "panic"
    if case.operation == "div_ceil" and case.fields["divisor"] == 0:
        return "panic"
    if case.operation == "fa1_draws" and not case.stakes:
        # Its weighted sampler is made even if no seat is drawn.
        return "panic"
    if case.operation in OWN_SUMS and case.size > 0 and case.total >= WORD_END:
        return None
    try:
        with rust_ways(case):
            return as_oracle(model.answer(case.line))
    except Unpredicted:
        return None
    except (ZeroDivisionError, ValueError, IndexError):
        # Divided by no seats, no weight or no fanout; the own id or the seat is not found.
        return "panic"


# ---- Comparing ----

def as_oracle(answer):
    """An answer of the model in the words of the oracle."""
    if answer.startswith("ok"):
        kept = [f for f in answer.split() if f.partition("=")[0] not in NEW_TO_THE_RUST]
        return " ".join(kept)
    return "dry" if answer == "refused 12" else "panic"


def same(expected, oracle_answer):
    return expected == ("panic" if oracle_answer.startswith("panic") else oracle_answer)


def agree(model_answer, oracle_answer):
    """Of the refusals, 12 and 13 are met in the Rust as well."""
    shared = model_answer.startswith("ok") or model_answer in ("refused 12", "refused 13")
    return shared and same(as_oracle(model_answer), oracle_answer)


def kind_of(case, oracle_answer):
    """The first known kind whose condition holds, if it explains the answer."""
    kinds = [kind.name for kind in KINDS if kind.condition(case)]
    if kinds and (expected := predicted(case)) is not None and not same(expected, oracle_answer):
        return None
    return kinds[0] if kinds else None


def oracle_answers(oracle, lines):
    text = "".join(line + "\n" for line in lines)
    run = subprocess.run([oracle], input=text, capture_output=True, text=True, check=True)
    answers = run.stdout.splitlines()
    if len(answers) != len(lines):
        sys.exit(f"{len(lines)} cases, but {len(answers)} answers of the oracle")
    return answers


def differing_fields(model_answer, oracle_answer):
    """The names of the fields that differ or that one side alone has."""
    sides = [set(answer.split()) for answer in (as_oracle(model_answer), oracle_answer)]
    return sorted({field.partition("=")[0] for field in sides[0] ^ sides[1] if "=" in field})


def report_unexplained(line, model_answer, oracle_answer):
    print("unexplained:", line[:400])
    print("  model: ", model_answer[:400])
    print("  oracle:", oracle_answer[:400])
    print("  fields:", ", ".join(differing_fields(model_answer, oracle_answer)))


def compare(lines, answers):
    """Counts by operation and outcome: "agreeing", a kind's name, or None."""
    counts = Counter()
    for line, oracle_answer in zip(lines, answers):
        case, model_answer, outcome = Case(line), model.answer(line), "agreeing"
        if not agree(model_answer, oracle_answer):
            outcome = kind_of(case, oracle_answer)
        if outcome is None:
            report_unexplained(line, model_answer, oracle_answer)
        counts[case.operation, outcome] += 1
    return counts


def print_table(counts):
    print(f"{'operation':14}{'cases':>7}{'agreeing':>10}  differing")
    for operation in model.OPERATIONS:
        row = {outcome: n for (name, outcome), n in counts.items() if name == operation}
        agreeing = row.pop("agreeing", 0)
        kinds = "; ".join(f"{kind or 'UNEXPLAINED'}: {n}" for kind, n in row.items())
        print(f"{operation:14}{sum(row.values()) + agreeing:>7}{agreeing:>10}  {kinds}".rstrip())


def print_kinds(by_outcome):
    print("\nKnown differences")
    for kind in KINDS:
        print(f"{by_outcome[kind.name]:>7}  {kind.name}: {kind.reason}")


def without_entry():
    """The known kinds that docs/DIFFERENCES.md does not name."""
    entries = DIFFERENCES.read_text()
    return [kind.name for kind in KINDS if f"`{kind.name}`" not in entries]


def main():
    oracle, n = sys.argv[1], int(sys.argv[2])
    lines = cases(n) + compared_lines()
    counts = compare(lines, oracle_answers(oracle, lines))
    by_outcome = Counter()
    for (_, outcome), times in counts.items():
        by_outcome[outcome] += times
    print_table(counts)
    print_kinds(by_outcome)
    never = [kind.name for kind in KINDS if not by_outcome[kind.name]]
    missing = without_entry()
    print(f"\n{len(lines)} cases, {by_outcome['agreeing']} agreeing, "
          f"{by_outcome[None]} unexplained; kinds never seen: {', '.join(never) or 'none'}; "
          f"kinds without an entry: {', '.join(missing) or 'none'}")
    sys.exit(1 if by_outcome[None] or missing or (never and n >= ALL_KINDS_FROM) else 0)


if __name__ == "__main__":
    main()
