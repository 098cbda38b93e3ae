#!/usr/bin/env python3
"""Shows that the comparison fails where it has to: by faults that are put between the driver and
the library, and by changed answers of the oracle.

The environment variable FAULTY names the driver that is linked with faults.c.
"""

import os
import re
import shutil
import subprocess
import sys
import unittest
from pathlib import Path

import short_inputs
from batches import Batch
from compare_library import answers_of, compare_batch, outcome_of
from entries import expected, library_line

FAULTY = os.environ["FAULTY"]
PROGRAM = Path(__file__).resolve().parent / "compare_library.py"
VALGRIND = ("valgrind", "--quiet", "--error-exitcode=9")
IID, ONE = "iid_sample_quorum", "decaying_acceptance_sample_one"
# Each fault, the entry that it is put in, and what the driver answers then.
FAULTS = {
    "a wrong value": (IID, r"^ok seats=[\d,]+ read=\d+$"),
    "a seat that is not written": (IID, "fault=unlike:seats"),
    "a seat too many": (IID, r"^ok seats=[\d,]+,0 read=\d+$"),
    "a byte after the buffer": (IID, "fault=stray:seats"),
    "a byte before the buffer": (IID, "fault=stray:seats"),
    "a byte after the answer": (IID, "fault=stray:answer"),
    "a wrong number of words": (IID, r"^ok seats=\S+ read=\d+$"),
    "a refused call that writes": (IID, r"^refused \d+ read=0$"),
    "a changed input": (IID, "fault=input:stakes"),
    "another refusal": (IID, "^refused 8$"),
    "a result by what was held": (IID, "fault=result"),
    "a crash": (IID, "^status -6"),
    "a count past the list": (ONE, r"^ok counts=\S+ id=\d+ tries=\d+ read=\d+$"),
    "a refused call that counts": (ONE, r"^refused 12 counts=\S+$"),
    "a sum that is left": ("weighted_shuffle", r"^ok order=\S+ sums=0,0,0,1,[0,]+ read=\d+$"),
    "a node too many": ("weighted_shuffle", "fault=unlike:zero_sums"),
    "a difference that wraps": ("stake_sub", r"^ok result=\d+$"),
}


def some_cases(name):
    """Short inputs from all over."""
    number = short_inputs.NUMBER[name]
    return [short_inputs.nth(name, i) for i in range(0, number, max(number // 200, 1))]


def with_fault(fault, *before):
    return ["env", f"FAULT={fault}", *before, FAULTY]


class Library(unittest.TestCase):
    def test_no_fault_no_difference(self):
        for name in sorted({name for name, _ in FAULTS.values()}):
            with self.subTest(name):
                cases = some_cases(name)
                counts = compare_batch(Batch("short", cases), [FAULTY], None)
                self.assertEqual(counts["short", name], len(cases))
                self.assertEqual(counts["differing", name], 0)

    def test_every_fault_is_seen(self):
        for fault, (name, pattern) in FAULTS.items():
            with self.subTest(fault):
                cases = some_cases(name)
                answers = answers_of(with_fault(fault), [library_line(*case) for case in cases])
                wrong = [answer for answer, case in zip(answers, cases)
                         if answer != expected(*case).library]
                self.assertTrue(any(re.search(pattern, answer) for answer in wrong), wrong[:3])

    def test_a_difference_is_reported_and_is_the_exit_status(self):
        command = [sys.executable, PROGRAM, "--sources", "short", "--calls", "2000", "--driver"]
        for fault, status in (("none", 0), ("a wrong value", 1)):
            run = subprocess.run([*command, f"env 'FAULT={fault}' {FAULTY}"], capture_output=True,
                                 text=True)
            self.assertEqual(run.returncode, status, run.stdout + run.stderr)
            self.assertEqual(f"the library differs: {IID}" in run.stdout, status == 1)

    @unittest.skipUnless(shutil.which(VALGRIND[0]), "valgrind is not installed")
    def test_exact_blocks_show_stray_bytes(self):
        case = short_inputs.nth(IID, 5_000)
        for fault, answered in (("none", re.escape(expected(*case).library)),
                                ("a byte after the buffer", "status 9: .* Invalid "),
                                ("a byte before the buffer", "status 9: .* Invalid "),
                                ("a word after the list", "status 9: .* Invalid read of size 8")):
            command = [*with_fault(fault, *VALGRIND), "exact"]
            answer, = answers_of(command, [library_line(*case)])
            self.assertRegex(answer, f"^{answered}")


class Oracle(unittest.TestCase):
    DRAWS = "iid stakes=3,0,4 k=3 words=2,3,13"
    DRAWN = "ok seats=0,2,2 read=3"

    def test_changed_answers_are_unexplained(self):
        for line, want, answer in (
                (self.DRAWS, self.DRAWN, "ok seats=0,2,0 read=3"),
                (self.DRAWS, self.DRAWN, "ok seats=0,2,2 read=4"),
                (self.DRAWS, self.DRAWN, "dry"),
                ("iid stakes=3,0,4 k=3 words=2,3", "refused 12", self.DRAWN),
                ("sub stake=2 rhs=3", "ok result=none", "ok result=0"),
                ("fa1_draws stakes=1 k=0 words=-", "refused 2", "ok seats=- further=0 read=0")):
            self.assertEqual(outcome_of(line, want, answer), "unexplained", line)

    def test_known_answers_are_explained(self):
        for line, want, answer, outcome in (
                (self.DRAWS, self.DRAWN, self.DRAWN, "agreeing"),
                ("sub stake=2 rhs=3", "ok result=none", "ok result=18446744073709551615",
                 "CheckedStake::None"),
                ("fa1_draws stakes=1 k=0 words=-", "refused 2", "panic attempt to divide by zero",
                 "k = 0 for FA1")):
            self.assertEqual(outcome_of(line, want, answer), outcome, line)


if __name__ == "__main__":
    unittest.main()
