#!/usr/bin/env python3
"""`store.py`: writes the lists of cases that the programs of crates/ replay.

`store.py --check` writes nothing and ends with 1 if a stored list is not what
would be written. The cases are some of those that compare.py holds against the
oracle; what they expect is the model's answer. All but those of the draws get
cursors and lent buffers besides, and are picked so that limits.py is met. Every
list is stored whole, the sums and the order of 4,096 weights too.

A stored case is a line: the number of the function and its name, its fields,
then `answer:` with 0 and the fields of the answer, or with the refusal's number.
A list is its length, then its numbers. Numbers stand before lists, and names
hold no digit: `words2` is stored as `words_second`.
"""

import sys
from pathlib import Path

import model
from cases import cases
from limits import LIMITS, PIECE_ROOMS, TOP, Stored, word_lists

CRATES = Path(__file__).resolve().parents[2] / "crates"
COMPARED = 20_000
DRAWS_OF_EACH, DRAWS_LONGEST = 100, 2_000
# Of a sampler, the shuffle or the views, and of a function without words.
OF_EACH, OF_SIMPLE = 150, 30
# A longer line is stored only where a limit needs it.
LONGEST = {"stake_weighted_cases": 1_500, "decaying_acceptance_cases": 1_500,
           "partition_cases": 600, "fait_accompli_cases": 600, "weighted_shuffle_cases": 600,
           "turbine_cases": 600}

# The functions of each program, in the order of their numbers, and the operation in FORMAT.md that
# their cases are taken from.
PROGRAMS = {
    "draws_cases": {"draw_below": "below", "draw_fraction": "fraction",
                    "draw_weighted": "weighted", "shuffle_list": "list_shuffle"},
    "stake_weighted_cases": {"sample": "iid", "sample_quorum": "iid"},
    "decaying_acceptance_cases": {"sample_one": "decaying_one", "sample_quorum": "decaying",
                                  "reset": "decaying_one"},
    "partition_cases": {"sample_quorum": "partition"},
    "fait_accompli_cases": {"partition_fallback": "fa1_bins",
                            "stake_weighted_fallback": "fa1_draws"},
    "weighted_shuffle_cases": {"get_num_nodes_and_tree_size": "tree", "begin": "tree",
                               "shuffle": "shuffle"},
    "turbine_cases": {"view": "turbine", "turbine_seed": "turbine_seed",
                      "rotor_seed": "rotor_seed", "relay": "relay"},
}

SEEDS = ("turbine_seed", "rotor_seed")

# Words that stand before the cursor.
PASSED = [7046029254386353131, 1609587929392839161, 9650029242287828579]
CURSORS = (0, 1, 3)
# Counts that stand past those of the list.
MORE_COUNTS = [model.MAX_COUNT, 5]
# How many places more than needed the buffers for pieces have.
MORE_PLACES = ((0, 0, 0), (0, 1, 2), (2, 0, 1), (30, 60, 90))
# The same of the order, the nodes and the children of a view: at most 280 nodes in all.
MORE_OF_VIEW = ((0, 0, 0), (1, 0, 0), (0, 1, 2), (3, 7, 60))


# ---- Lines ----

def write_field(name, value):
    name = name.replace("2", "_second")
    if isinstance(value, list):
        return " ".join([f"{name}:", str(len(value)), *map(str, value)])
    return f"{name}={value}"


def write_fields(fields):
    """Numbers first."""
    ordered = sorted(fields.items(), key=lambda field: isinstance(field[1], list))
    return [write_field(name, value) for name, value in ordered]


def stored_line(program, function, stored):
    number = list(PROGRAMS[program]).index(function) + 1
    answer = [str(stored.refusal), *write_fields(stored.answer)]
    return " ".join([str(number), function, *write_fields(stored.given), "answer:", *answer]) + "\n"


def read_fields(tokens):
    """The fields that the tokens spell."""
    fields, at = {}, 0
    while at < len(tokens):
        name, equals, value = tokens[at].replace("_second", "2").partition("=")
        if equals:
            fields[name], at = int(value), at + 1
        else:
            end = at + 2 + int(tokens[at + 1])
            fields[name.rstrip(":")], at = [int(token) for token in tokens[at + 2:end]], end
    return fields


def read_line(line):
    """The function of a stored line, and its case."""
    _, function, *tokens = line.split()
    at = tokens.index("answer:")
    given, answer = tokens[:at], tokens[at + 2:]
    return function, Stored(read_fields(given), int(tokens[at + 1]), read_fields(answer))


# ---- Answers ----

def answer_of(function, operation, given):
    """The fields of the model's answer as they are stored."""
    if function == "reset":
        return model.answer_fields("reset", given)
    if function == "get_num_nodes_and_tree_size":
        return model.answer_fields("sizes", given)
    if function == "begin":
        model.check_shuffle(**given)
        tree = model.answer_fields(operation, {"stakes": given["stakes"]})
        return {name: tree[name] for name in ("weight", "sums", "zeros")}
    if function == "view":
        return view_answer(operation, given)
    if function == "sample":
        answer = model.answer_fields(operation, {**given, "k": 1})
        return {"id": answer["seats"][0], "read": answer["read"]}
    if function == "stake_weighted_fallback":
        used = {name: given[name] for name in ("stakes", "k", "words", "cursor", "room")}
        return {**model.answer_fields(operation, used), "read2": 0, **model.piece_fields([])}
    answer = model.answer_fields(operation, given)
    if function == "draw_fraction":
        # By its numerator over 2^53.
        answer = {"numerator": int(model.f64_of(answer["bits"]) * 2**53), "read": answer["read"]}
    return answer


def view_answer(operation, given):
    """With the parent as two numbers, and the whole order."""
    answer = model.answer_fields(operation, given)
    parent, order = answer.pop("parent"), answer.pop("whole_order")
    parents = (0, 0) if parent == "none" else (1, parent)
    return {"root": answer.pop("root"), **dict(zip(("has_parent", "parent"), parents)), **answer,
            "order": order}


def answered(function, operation, given):
    try:
        return Stored(given, 0, answer_of(function, operation, given))
    except model.Refused as refused:
        return Stored(given, refused.number, {})


# ---- Cases of the draws ----

def is_whole_shuffle(operation, line):
    """The shuffle of the longest list."""
    before_words = line[:line.find("words")]
    return operation == "list_shuffle" and before_words.count(",") == model.MAX_LIST - 1


def draw_lines(program, function, own):
    """The first short cases, and the longest list."""
    operation = PROGRAMS[program][function]
    lines = [line for line in own if len(line) <= DRAWS_LONGEST][:DRAWS_OF_EACH]
    lines += [line for line in own if is_whole_shuffle(operation, line)]
    return [stored_line(program, function, answered(function, operation, model.read_case(line)[1]))
            for line in lines]


# ---- Cases of the samplers ----

def view_places(stakes, fanout):
    """Of a longer list than is taken, the nodes of the longest."""
    return {"room": len(stakes), "room_nodes": model.nodes_needed(stakes[:model.MAX_LIST]),
            "room_children": model.children_needed(stakes, fanout)}


def places_needed(function, given):
    """How many places of each lent buffer the call needs, but for counts."""
    if function == "view":
        return view_places(given["stakes"], given["fanout"])
    if function in SEEDS:
        return {"room": model.SEED_BYTES}
    if function in ("begin", "shuffle"):
        nodes = {"room_nodes": model.nodes_needed(given["stakes"])} if function == "begin" else {}
        return {"room": len(given["stakes"]), **nodes}
    size = given.get("k", given.get("bins"))
    needed = {} if size is None else {"room": size}
    if "words2" in given:
        plain = function == "stake_weighted_fallback"
        pieces = 0 if plain else model.pieces_needed(given["stakes"], size)
        needed.update(dict.fromkeys(PIECE_ROOMS, pieces))
    return needed


def from_cursor(given, which, cursor):
    """The first or second list of words, from a cursor on."""
    return {"cursor" + which: cursor, "words" + which: PASSED[:cursor] + given["words" + which]}


def lent(function, given, i):
    """A case from a cursor on, with the places that it needs or a few more, and counts past the
    list."""
    needed = places_needed(function, given)
    given = dict(given)
    for which in word_lists(given):
        given.update(from_cursor(given, which, CURSORS[(i // 3 if which else i) % 3]))
    more = MORE_OF_VIEW[i % 4] if function == "view" else (i % 4, *MORE_PLACES[i % 4])
    given.update({name: places + spare for (name, places), spare in zip(needed.items(), more)})
    if "counts" in given and i % 5 == 0:
        given["counts"] = given["counts"] + MORE_COUNTS[:1 + i % 2]
    return given


def variants(function, given, i):
    """The case as lent and, of some, what a short buffer or a cursor past the end makes of it."""
    whole = lent(function, given, i)
    yield whole
    if i % 3 == 0:
        needed = places_needed(function, given)
        yield from ({**whole, name: places - 1} for name, places in needed.items() if places > 0)
        if function in SEEDS:
            yield {**whole, "room": 0}
    if given.get("counts") and i % 3 == 1:
        yield {**whole, "counts": given["counts"][:-1]}
    if i % 3 == 2:
        for which in word_lists(given):
            past_end = TOP if i % 2 else len(given["words" + which]) + 5
            yield {**whole, "cursor" + which: past_end}


def words_kept(stored, which, i):
    """How many words are kept: those read and two more at most, or all where they may run out."""
    if stored.past_end(which):
        return i % 3
    if stored.refusal in (12, 13):
        return None
    return stored.given["cursor" + which] + stored.answer.get("read" + which, 0) + i % 3


def without_unread(stored, i):
    """Without the words that are not read, but for two at most."""
    given = dict(stored.given)
    for which in word_lists(given):
        given["words" + which] = given["words" + which][:words_kept(stored, which, i)]
    return stored._replace(given=given)


def sampler_cases(function, operation, own):
    """Every case that could be stored, in the order of those compared."""
    for i, line in enumerate(own):
        given = model.read_case(line)[1]
        if function == "sample" and given.pop("k") != 1:
            continue
        if function == "stake_weighted_fallback":
            given["words2"] = PASSED
        for variant in variants(function, given, i):
            yield without_unread(answered(function, operation, variant), i)


def reset_cases(own):
    for line in own:
        counts = model.read_case(line)[1]["counts"]
        yield answered("reset", None, {"counts": counts})


def size_cases(own):
    for line in own:
        stakes = model.read_case(line)[1]["stakes"]
        yield answered("get_num_nodes_and_tree_size", None, {"count": len(stakes)})


# How the cases of some functions without words are made.
SIMPLE = {"reset": reset_cases, "get_num_nodes_and_tree_size": size_cases}
FEW = {*SIMPLE, *SEEDS, "relay"}


def picked(candidates, limits, of_each, longest):
    """For each limit two short lines that meet it, or a long one; then accepted calls from all
    over."""
    by_length = sorted(candidates, key=len)
    meeting = {name: [line for line in by_length if holds(candidates[line])]
               for name, holds in limits.items()}
    if missing := [name for name, lines in meeting.items() if not lines]:
        sys.exit(f"no case shows: {', '.join(missing)}")
    chosen = set()
    # The limits that need a long line come first, since that line may meet others.
    for lines in sorted(meeting.values(), key=lambda lines: len(lines[0]), reverse=True):
        if not chosen.intersection(lines):
            chosen.add(lines[0])
        chosen.update(line for line in lines[:2] if len(line) <= longest)
    others = [line for line, case in candidates.items()
              if case.accepted and len(line) <= longest and line not in chosen]
    more = max(of_each - len(chosen), 0)
    chosen.update(others[::max(len(others) // max(more, 1), 1)][:more])
    return [line for line in candidates if line in chosen]


def sampler_lines(program, function, own):
    operation = PROGRAMS[program][function]
    simple = SIMPLE.get(function)
    stored = simple(own) if simple else sampler_cases(function, operation, own)
    candidates = {stored_line(program, function, case): case for case in stored}
    of_each = OF_SIMPLE if function in FEW else OF_EACH
    return picked(candidates, LIMITS[program][function], of_each, LONGEST[program])


# ---- The lists ----

def lists():
    """Each stored list's path and its text."""
    compared = cases(COMPARED)
    texts = {}
    for program, functions in PROGRAMS.items():
        lines = []
        for function, operation in functions.items():
            own = [line for line in compared if line.split(" ", 1)[0] == operation]
            lines += (sampler_lines if program in LIMITS else draw_lines)(program, function, own)
        texts[CRATES / program / "stdin"] = "".join(lines)
    return texts


# The fields of the operations that the oracle is asked, in the order of FORMAT.md.
COMPARED_FIELDS = {
    "iid": ("stakes", "k", "words"),
    "decaying": ("stakes", "k", "max_samples", "allowed", "counts", "words"),
    "decaying_one": ("stakes", "max_samples", "allowed", "counts", "words"),
    "partition": ("stakes", "bins", "words", "words2"),
    "fa1_bins": ("stakes", "k", "words", "words2"),
    "fa1_draws": ("stakes", "k", "words"),
    "reset": ("counts",),
    "tree": ("stakes",),
    "sizes": ("count",),
    "shuffle": ("stakes", "words"),
    "turbine": ("stakes", "fanout", "own", "words"),
    "turbine_seed": ("slot", "shred"),
    "rotor_seed": ("slot", "slice"),
    "relay": ("seats", "shred"),
    "div_ceil": ("stake", "divisor"),
    **dict.fromkeys(("checked_add", "sub", "mul"), ("stake", "rhs")),
    "sum": ("stakes",),
    "stake_fmt": ("stake",),
    "index_fmt": ("id",),
}


def as_compared(operation, given):
    """A case as the oracle takes it: the words from the cursor on, and the list's counts."""
    fields = {"k": 1, **given}
    for which in word_lists(given):
        fields["words" + which] = given["words" + which][given["cursor" + which]:]
    if "counts" in given and "stakes" in given:
        fields["counts"] = given["counts"][:len(given["stakes"])]
    names = COMPARED_FIELDS[operation]
    return model.write_fields(operation, {name: fields[name] for name in names})


def is_short(function, given):
    """Whether a lent buffer is shorter than needed. In the Rust none is lent."""
    few_counts = "counts" in given and len(given["counts"]) < len(given["stakes"])
    needed = places_needed(function, given)
    return few_counts or any(given[name] < places for name, places in needed.items())


def compared_lines():
    """The stored cases, but for those of the draws and those with a short buffer."""
    lines = []
    for program in LIMITS:
        for line in (CRATES / program / "stdin").read_text().splitlines():
            function, stored = read_line(line)
            if function != "reset" and not is_short(function, stored.given):
                operation = "sizes" if "count" in stored.given else PROGRAMS[program][function]
                lines.append(as_compared(operation, stored.given))
    return lines


def main():
    texts = lists()
    if sys.argv[1:] != ["--check"]:
        for path, text in texts.items():
            path.write_text(text)
        return
    stale = [path for path, text in texts.items() if not path.exists() or path.read_text() != text]
    for path in stale:
        print("not what the model gives:", path.relative_to(CRATES.parent))
    sys.exit(1 if stale else 0)


if __name__ == "__main__":
    main()
