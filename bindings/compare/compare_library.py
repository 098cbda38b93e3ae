#!/usr/bin/env python3
"""The library, the oracle and the model on the same cases.

The library's driver has to answer as the model expects, on everything. The oracle may differ from
the model by the known kinds of oracle/model/compare.py alone. Ends with 1 if there is any other
difference, or if a known kind has no entry in docs/DIFFERENCES.md.
"""

import argparse
import os
import shlex
import subprocess
import sys
import time
from collections import Counter
from multiprocessing import Array, Pool

from batches import SIZES, Batches
from entries import (ENTRIES, NOT_ASKED, ROOT, expected, library_line, oracle_line,
                     why_not_asked)
from short_inputs import NUMBER

import compare

KINDS = [kind.name for kind in compare.KINDS]
# How much of a line is shown, and how many differences of a kind by each worker.
SHOWN, MOST_SHOWN = 1_000, 10
shown = Counter()


# ---- Answers of programs ----

def answers_of(command, lines):
    """An answer to each line. Where the program fails, the case that it fails on is answered by its
    status."""
    text = "".join(line + "\n" for line in lines)
    run = subprocess.run(command, input=text, capture_output=True, text=True)
    answers = run.stdout.splitlines()
    if run.returncode == 0 and len(answers) == len(lines):
        return answers
    if len(lines) == 1:
        return [f"status {run.returncode}: {run.stderr.strip()}"]
    half = len(lines) // 2
    return answers_of(command, lines[:half]) + answers_of(command, lines[half:])


# ---- Comparing ----

def report(what, line, wanted, answer):
    """Shows a difference, from just before the first place where the answers differ."""
    shown[what] += 1
    if shown[what] > MOST_SHOWN:
        return
    start = max(len(os.path.commonprefix([wanted, answer])) - 40, 0)
    part = slice(start, start + SHOWN)
    print(f"{what}: {line[:SHOWN]}\n  model:  {wanted[part]}\n  answer: {answer[part]}", flush=True)


def compare_library(driver, cases, wanted):
    """Counts, by entry, the cases that are accepted, and the library's answers that differ."""
    counts = Counter()
    lines = [library_line(*case) for case in cases]
    answers = answers_of(driver, lines)
    for (name, _), line, (_, want), answer in zip(cases, lines, wanted, answers):
        counts["accepted", name] += want.startswith("ok")
        if answer != want:
            counts["differing", name] += 1
            report("the library differs", line, want, answer)
    return counts


def outcome_of(line, want, answer):
    """"agreeing", the kind of a known difference, or "unexplained"."""
    if compare.agree(want, answer):
        return "agreeing"
    return compare.kind_of(compare.Case(line), answer) or "unexplained"


def compare_oracle(oracle, cases, wanted):
    """Counts, by entry, how the oracle's answers compare, and why it is not asked."""
    counts, asked = Counter(), []
    for case, (want, _) in zip(cases, wanted):
        reason = why_not_asked(*case)
        if reason is None:
            asked.append((case[0], oracle_line(*case), want))
        else:
            counts[reason, case[0]] += 1
    answers = answers_of(oracle, [line for _, line, _ in asked])
    for (name, line, want), answer in zip(asked, answers):
        outcome = outcome_of(line, want, answer)
        counts[outcome, name] += 1
        if outcome == "unexplained":
            report("the oracle differs", line, want, answer)
    return counts


def compare_batch(batch, driver, oracle):
    """`oracle` may be None."""
    wanted = [expected(*case) for case in batch.cases]
    counts = Counter((batch.source, name) for name, _ in batch.cases)
    counts += compare_library(driver, batch.cases, wanted)
    return counts + compare_oracle(oracle, batch.cases, wanted) if oracle else counts


# ---- Workers ----

def share(numbers):
    """Gives a worker what all share: the number of the next batch, and the cases before it."""
    global taken
    taken = numbers


def take(options, batches):
    """The number of the next batch, or None once time or cases have run out."""
    with taken.get_lock():
        number, cases = taken
        if time.time() >= options.end or cases >= options.calls:
            return None
        taken[:] = number + 1, cases + len(batches.places(number)[1])
        return number


def work(options):
    """The batches of one worker."""
    batches, counts = Batches(options.seed, options.sources), Counter()
    while (number := take(options, batches)) is not None:
        counts += compare_batch(batches.batch(number), options.driver, options.oracle)
    return counts


def compare_all(options):
    with Pool(options.workers, share, [Array("q", 2)]) as pool:
        return sum(pool.map(work, [options] * options.workers, chunksize=1), Counter())


# ---- Tables ----

def columns(options, counts):
    """The titles of the table by entry, and what stands under each."""
    yield "cases", lambda name: sum(counts[source, name] for source in SIZES)
    yield "accepted", lambda name: counts["accepted", name]
    yield "differing", lambda name: counts["differing", name]
    if options.oracle:
        outcomes = [*KINDS, "agreeing", "unexplained"]
        yield "oracle", lambda name: sum(counts[outcome, name] for outcome in outcomes)
        yield "agreeing", lambda name: counts["agreeing", name]
    if "short" in options.sources:
        yield "short inputs", lambda name: f"{counts['short', name]} of {NUMBER[name]}"


def print_entries(options, counts):
    table = list(columns(options, counts))
    print(f"{'entry':44}" + "".join(f" {title:>9}" for title, _ in table))
    for name in ENTRIES:
        print(f"{name:44}" + "".join(f" {value(name):>9}" for _, value in table))


def total(counts, what):
    return sum(number for (kind, _), number in counts.items() if kind == what)


def print_totals(title, names, counts):
    print(f"\n{title}")
    for name in names:
        print(f"{total(counts, name):>9}  {name}")


def print_tables(options, counts):
    print_entries(options, counts)
    print_totals("Cases by source", options.sources, counts)
    if options.oracle:
        print_totals("Known differences of the oracle", KINDS, counts)
        print_totals("Not asked of the oracle", NOT_ASKED, counts)


def parsed():
    parser = argparse.ArgumentParser(description=__doc__,
                                     formatter_class=argparse.RawDescriptionHelpFormatter)
    parser.add_argument("--driver", type=shlex.split, default=[str(ROOT / "target/compare/driver")],
                        help="the command of the library's driver")
    parser.add_argument("--oracle", type=shlex.split,
                        help="its command; without it the library and the model are compared")
    parser.add_argument("--seconds", type=float, default=20.0, help="the time after which to end")
    parser.add_argument("--calls", type=float, default=float("inf"),
                        help="the cases after which to end, each of which is called twice")
    parser.add_argument("--seed", type=int, default=1)
    parser.add_argument("--workers", type=int, default=os.cpu_count())
    parser.add_argument("--sources", type=lambda text: text.split(","), default=list(SIZES),
                        help="some of " + ",".join(SIZES))
    return parser.parse_args()


def main():
    options, start = parsed(), time.time()
    options.end = start + options.seconds
    counts = compare_all(options)
    seconds, cases = time.time() - start, sum(total(counts, source) for source in SIZES)
    differing, unexplained = total(counts, "differing"), total(counts, "unexplained")
    missing = compare.without_entry()
    print_tables(options, counts)
    print(f"\n{cases} cases of seed {options.seed} in {seconds:.0f} s, "
          f"{cases / seconds:.0f} a second; {differing} differences of the library")
    if options.oracle:
        print(f"{unexplained} unexplained differences of the oracle; "
              f"kinds without an entry: {', '.join(missing) or 'none'}")
    sys.exit(1 if differing or unexplained or missing else 0)


if __name__ == "__main__":
    main()
