"""The longest chain of proofs: how it is found, kept and printed."""
from __future__ import annotations

import tempfile
import unittest
from pathlib import Path
from unittest import mock

from tools.check import chain
from tools.check.chain import Span
from tools.check.measure import Checks
from tools.check.processes import TICKS
from tests.check.tree import InTree, part

USES = {"low": ["itoa"], "quick": ["low"], "slow": ["low"], "other": [], "top": ["quick", "slow", "other"], "tests": ["quick"]}
SPANS = {"other": Span(0, 50, 90), "low": Span(0, 100, 99), "quick": Span(100, 130, 29), "slow": Span(100, 400, 280),
         "top": Span(410, 450, 39), "tests": Span(400, 480, 80)}


class Chains(unittest.TestCase):
    """The longest chain of the proofs in SPANS."""

    def setUp(self) -> None:
        """Lets the crates use each other as in USES, instead of as in `crates.txt`."""
        patched = mock.patch("tools.check.chain.uses", return_value=USES)
        patched.start()
        self.addCleanup(patched.stop)

    def test_a_chain_has_for_each_crate_the_one_for_which_it_waited(self) -> None:
        """A crate waits for the one whose proof ends last among those that it uses. Crates without a time are left
        out."""
        self.assertEqual(chain.chain(SPANS, "top"), ["low", "slow", "top"])
        self.assertEqual(chain.chain(SPANS, "tests"), ["low", "quick", "tests"])
        without = {crate: it for crate, it in SPANS.items() if crate != "low"}
        self.assertEqual(chain.chain(without, "top"), ["slow", "top"])

    def test_the_tables_have_the_waits_and_times_of_each_proof(self) -> None:
        """A row has a crate of the chain, the seconds that its proof waited for a free processor, the seconds that it
        took, the second at which it ended, and its processor time. If no crate is named, the table is that of the chain
        to the crate that was proved last. Also checks the line about this chain, and the list of all processor times."""
        rows = [line.split() for line in chain.chain_tables(SPANS, ["top"]).splitlines()[1:]]
        self.assertEqual(rows, [["low", "0", "100", "100", "99"], ["slow", "0", "300", "400", "280"], ["top", "10", "40", "450", "39"],
                                ["sum", "10", "440", "450", "418"]])
        self.assertIn("the chain to tests, ", chain.chain_tables(SPANS, []))
        self.assertEqual(chain.short(SPANS), "the longest chain, in seconds: low 100, quick 30, tests 80; it ended after 480: ./check chain prints each proof")
        self.assertEqual(chain.table(SPANS).splitlines()[1:], ["low 99", "quick 29", "slow 280", "other 90", "top 39", "tests 80"])

    def test_saved_times_are_read_back_and_without_a_file_there_are_none(self) -> None:
        with tempfile.TemporaryDirectory() as room:
            file = Path(room) / "out/proofs.txt"
            self.assertEqual(chain.saved_spans(file), {})
            chain.save_spans(SPANS, file)
            self.assertEqual(chain.saved_spans(file), SPANS)

    def test_the_times_of_proofs_come_from_the_prover_s_processes(self) -> None:
        """A crate's time is from the beginning of its first check to the end of its last. Tests and wrong bodies
        don't count."""
        checks = Checks()
        for pid, begin, work, end, used in ((1, 1000, ("low", "proof"), 1100.0, 90.0), (2, 1105, ("low", "proof"), 1110.0, 4.0),
                                            (3, 1110, ("top", "proof"), 1200.0, 80.0), (4, 990, ("top", "tests"), 1300.0, 70.0)):
            check = pid, str(begin * TICKS)
            checks.works[check], checks.seen[check], checks.used[check] = work, end, used
        self.assertEqual(chain.spans_of(checks), {"low": Span(0, 110, 94), "top": Span(110, 200, 80)})


class Words(InTree):
    """`./check chain` as its user calls it."""

    def test_chain_without_an_earlier_run_is_an_error(self) -> None:
        self.stand_in(part("one", "echo 1 call"))
        done = self.check("chain")
        self.assertEqual((done.returncode, done.stdout, done.stderr), (1, "", "check: no ./check has proved anything in this tree\n"))

    def test_chain_prints_the_times_that_the_last_run_saved(self) -> None:
        """A run saves the times of its proofs, and prints the chain as a line. `chain` prints it as a table. The prover
        is a script called `rattle`, and proves `one` and then `two`, for at least three seconds each."""
        prover = self.room / "rattle"
        prover.write_text("#!/bin/sh\nwhile [ ! -e \"$ROOM/$3\" ]; do sleep 0.1; done\n", encoding="utf-8")
        prover.chmod(0o755)
        line = f'for it in one two; do {prover} check --crate-name $it & sleep 3; touch "$ROOM/$it"; wait; done; echo 2 passed, 0 failed'
        self.stand_in(part("one", "echo 1 call"), proofs=line)
        done = self.check_beside("proofs")
        self.assertEqual(done.returncode, 0, done.stdout + done.stderr)
        self.assertRegex(done.stdout, r"(?m)^the longest chain, in seconds: one \d+, two \d+; it ended after \d+: \./check chain prints each proof$")
        self.assertEqual(self.check_beside("chain").stdout.splitlines()[0].split(",")[0], "the chain to two")
        self.assertEqual([line.split()[0] for line in self.check_beside("chain", "two", "one").stdout.splitlines() if line],
                         ["the", "one", "two", "sum", "the", "one", "sum"])
        self.assertRegex(self.check_beside("chain", "--table").stdout, r"^# .*\none \d+\ntwo \d+\n$")
        self.assertIn("there is no crate four", self.check_beside("chain", "four").stderr)


if __name__ == "__main__":
    unittest.main()
