"""The entries of the library: the fields of their cases, what the model expects of them, and what
the oracle is asked.

A case is the name of an entry, which is its function's without `valwydr_`, and the fields that are
given.
"""

import sys
from pathlib import Path
from typing import Callable, NamedTuple

ROOT = Path(__file__).resolve().parents[2]
sys.path.append(str(ROOT / "oracle" / "model"))

import compare
import model
import store
from limits import PIECE_ROOMS, TOP

SUMS_OF_NODE = 16
# The most seats that are asked of the oracle: the first number that is refused here.
MOST_ASKED = model.MAX_SEATS + 1
# Past this many weights the Rust's sizes do not end.
MOST_WEIGHTS = 2**60


# ---- The library's answer from the model's: the buffers in the order in which they are lent, then
# the places of `answer` ----

def as_it_is(_given, answer):
    return answer


def sampled(_given, answer):
    return {"id": answer["seats"][0], "read": answer["read"]}


def drawn_one(_given, answer):
    return {"counts": answer["counts"], "id": answer["seat"], "tries": answer["tries"],
            "read": answer["read"]}


def drawn_quorum(_given, answer):
    return {name: answer[name] for name in ("counts", "seats", "tries", "read")}


def over_bins(_given, answer):
    lists = {name: value for name, value in answer.items() if isinstance(value, list)}
    further = {"further": answer["further"]} if "further" in answer else {}
    return {**lists, **further, "pieces": len(answer["piece_bins"]), "read": answer["read"],
            "read2": answer["read2"]}


def plain_draws(_given, answer):
    return {"seats": answer["seats"], "further": answer["further"], "pieces": 0,
            "read": answer["read"], "read2": 0}


def zero_sums(given):
    """As many as the tree has."""
    return SUMS_OF_NODE * model.nodes_needed(given["stakes"])


def shuffled(given, answer):
    return {"order": answer["order"], "zero_sums": zero_sums(given), "read": answer["read"]}


def viewed(given, answer):
    parent, children = answer["parent"], answer["children"]
    return {"order": answer["whole_order"], "zero_sums": zero_sums(given), "children": children,
            "root": answer["root"], "parent": TOP if parent == "none" else parent,
            "number_of_children": len(children), "read": answer["read"]}


def computed(_given, answer):
    """None where no stake is the result."""
    return None if answer["result"] == "none" else answer


def formatted(_given, answer):
    """None where the buffer is shorter than the digits."""
    digits = answer["bytes"]
    return None if digits == "none" else {"bytes": digits, "written": len(digits)}


class Entry(NamedTuple):
    """`operation` is that of oracle/FORMAT.md. `fields` are in the order in which the driver reads
    them. `function` is that of store.py which is lent the same buffers."""

    operation: str
    fields: tuple
    library: Callable[[dict, dict], dict]
    function: str = "sample_quorum"


PLAIN_DRAWS = ("stakes", "k", "words", "cursor", "room")
DECAYING = ("max_samples", "allowed", "counts", "words", "cursor")
OVER_BINS = ("words", "words2", "cursor", "cursor2", "room", *PIECE_ROOMS)
TREE = ("words", "cursor", "room", "room_nodes")
VIEW = ("stakes", "fanout", "own", *TREE, "room_children")

ENTRIES = {
    "stake_weighted_sample": Entry("iid", ("stakes", "words", "cursor"), sampled),
    "iid_sample_quorum": Entry("iid", PLAIN_DRAWS, as_it_is),
    "decaying_acceptance_sample_one": Entry("decaying_one", ("stakes", *DECAYING), drawn_one),
    "decaying_acceptance_sample_quorum":
        Entry("decaying", ("stakes", "k", *DECAYING, "room"), drawn_quorum),
    "decaying_acceptance_reset": Entry("reset", ("counts",), as_it_is),
    "partition_sample_quorum": Entry("partition", ("stakes", "bins", *OVER_BINS), over_bins),
    "fait_accompli1_with_partition_fallback":
        Entry("fa1_bins", ("stakes", "k", *OVER_BINS), over_bins),
    "fait_accompli1_with_stake_weighted_fallback": Entry("fa1_draws", PLAIN_DRAWS, plain_draws),
    "get_num_nodes_and_tree_size": Entry("sizes", ("count",), as_it_is),
    "weighted_shuffle": Entry("shuffle", ("stakes", *TREE), shuffled, "begin"),
    "turbine_tree_new": Entry("turbine", VIEW, viewed, "view"),
    "turbine_seed": Entry("turbine_seed", ("slot", "shred", "room"), as_it_is, "turbine_seed"),
    "rotor_seed": Entry("rotor_seed", ("slot", "slice", "room"), as_it_is, "rotor_seed"),
    "sample_relay": Entry("relay", ("seats", "shred"), as_it_is),
    "stake_div_ceil": Entry("div_ceil", ("stake", "divisor"), computed),
    "stake_checked_add": Entry("checked_add", ("stake", "rhs"), computed),
    "stake_sub": Entry("sub", ("stake", "rhs"), computed),
    "stake_mul": Entry("mul", ("stake", "rhs"), computed),
    "stake_sum": Entry("sum", ("stakes",), computed),
    "stake_fmt": Entry("stake_fmt", ("stake", "room"), formatted),
    "validator_index_fmt": Entry("index_fmt", ("id", "room"), formatted),
}


# ---- Cases as lines ----

def library_line(name, given):
    """A case as the driver reads it."""
    return model.write_fields(name, {field: given[field] for field in ENTRIES[name].fields})


def oracle_line(name, given):
    return store.as_compared(ENTRIES[name].operation, given)


# ---- What is expected ----

class Expected(NamedTuple):
    """The model's answer to the operation, with the list's counts, and the library's that it leads
    to."""

    model: str
    library: str


def expected(name, given):
    entry = ENTRIES[name]
    fields = {"k": 1, **given} if name == "stake_weighted_sample" else given
    try:
        answer = model.answer_fields(entry.operation, fields)
    except model.Refused as refused:
        refusal = f"refused {refused.number}"
        return Expected(refusal, refusal)
    library = entry.library(given, answer)
    if "counts" in answer and "stakes" in given:
        answer = {**answer, "counts": answer["counts"][:len(given["stakes"])]}
    return Expected(model.write_fields("ok", answer),
                    "none" if library is None else model.write_fields("ok", library))


# ---- What the oracle is asked ----

def places_needed(name, given):
    """How many places of each lent buffer the call needs, but for counts."""
    if ENTRIES[name].library is formatted:
        return {"room": len(str(given.get("stake", given.get("id"))))}
    return store.places_needed(ENTRIES[name].function, given)


def few_counts(given):
    return "stakes" in given and len(given.get("counts", given["stakes"])) < len(given["stakes"])


def is_short(name, given):
    needed = places_needed(name, given)
    return few_counts(given) or any(given[room] < places for room, places in needed.items())


def sum_wraps(name, given):
    return ENTRIES[name].operation in compare.OWN_SUMS and sum(given["stakes"]) >= model.WORD_END


def product_wraps(_name, given):
    return given.get("fanout", 0) >= 2**63 and given["own"] < len(given["stakes"])


# Why a case is not put to the oracle.
NOT_ASKED = {
    "a lent buffer is too short: the Rust is lent none": is_short,
    "a sum wraps, where any answer of the Rust is taken": sum_wraps,
    "k or bins over 1,025, which the limit alone refuses":
        lambda _name, given: given.get("k", given.get("bins", 0)) > MOST_ASKED,
    "a fanout of 2^63 or more, whose product wraps": product_wraps,
    "more than 2^60 weights, for which the Rust does not end":
        lambda _name, given: given.get("count", 0) > MOST_WEIGHTS,
    "no count to reset: there is no such sampler in the Rust":
        lambda name, given: name == "decaying_acceptance_reset" and not given["counts"],
}


def why_not_asked(name, given):
    """The first reason that applies, or None."""
    return next((reason for reason, applies in NOT_ASKED.items() if applies(name, given)), None)
