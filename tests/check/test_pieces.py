"""The results of parts, their times, and how they share the processors."""
from __future__ import annotations

import tempfile
import unittest
from pathlib import Path

from tools.check.kit import fault
from tools.check.measure import Checks, figures
from tools.check.parts import ALL, PROOFS, QUICK, WRONG, Part, minutes, minutes_of, proofs_of, uses, wrong_of
from tools.check.results import not_tried, result
from tools.check.running import Crew, Done

SHELL = ("sh", "-c")


def done(output: str, status: int = 0) -> Done:
    """Returns a part that has ended with this output and status."""
    return Done(Part("it", ("true",), 1, 1), status, 1.0, 0.5, output)


class Results(unittest.TestCase):
    """Reading a part's output."""

    def test_a_part_s_output_and_status_say_how_many_tests_passed_and_failed(self) -> None:
        """A part that only prints what it did counts as one test. A part in which no test ran has failed."""
        for output, status, wanted in (
            ("12 calls\n", 0, (1, 0)), ("so\n40 passed, 0 failed\n\n", 0, (40, 0)), ("40 passed, 2 failed\n", 1, (40, 2)),
            ("40 passed, 0 failed\n", 2, (40, 1)), ("19 passed, 0 failed (one alone: not the gate)\n", 0, (19, 0)),
            ("0 passed, 0 failed\n", 0, (0, 1)), ("40 passed, 2 failed\n", 0, (40, 2)), ("12 calls\n", -9, (0, 1)),
            ("all\n", 0, (0, 1)), ("0 calls in 3.5 seconds\n", 0, (0, 1)), ("", 0, (0, 1)), ("", 1, (0, 1)),
            ("Ran 3 tests in 1.0s\n\nOK\n", 0, (1, 0)), ("Ran 3 tests in 1.0s\n\nOK (skipped=3)\n", 0, (0, 1)),
            ("Ran 3 tests in 1.0s\n\nOK (skipped=2)\n", 0, (1, 0)), ("Ran 3 tests in 1.0s\n\nFAILED (errors=1)\n", 1, (0, 1)),
        ):
            it = result(done(output, status))
            self.assertEqual((it.passed, it.failed), wanted, output)

    def test_reasons_of_skipped_tests_are_listed_once(self) -> None:
        said = "test_a (x.Y) ... ok\ntest_b (x.Y) ... skipped 'not tried: java'\ntest_c (x.Y) ... skipped \"not tried: java\"\n"
        self.assertEqual(not_tried(said), ["not tried: java"])

    def test_the_version_of_rt_must_be_one_that_the_readme_names(self) -> None:
        """The README has exactly one line that names the versions, and all of them have the same logic."""
        page = "# A\n\nIt is proved with `kit-2 logic a0`.\nMore.\n"
        self.assertEqual(fault(page, "kit-2 logic a0"), "")
        self.assertIn("README.md names kit-2 logic a0, and rt is kit-3 logic a0", fault(page, "kit-3 logic a0"))
        self.assertIn("exactly one line", fault("# A\n", "kit-2 logic a0"))
        self.assertIn("exactly one line", fault(page + page, "kit-2 logic a0"))
        both = "It is proved with `kit-2 logic a0` and with `kit-3 logic a0`.\n"
        self.assertEqual([fault(both, it) for it in ("kit-2 logic a0", "kit-3 logic a0")], ["", ""])
        self.assertIn("kit-2 logic a0 and kit-3 logic a0, and rt is kit-4 logic a0", fault(both, "kit-4 logic a0"))
        self.assertIn("different logics", fault("It is proved with `kit-2 logic a0` and with `kit-3 logic a1`.\n", "kit-3 logic a1"))


class Figures(unittest.TestCase):
    """The table of times at the end."""

    def test_the_table_has_the_processor_minutes_of_each_crate_and_kind(self) -> None:
        """`works` has the crate of each process of the prover, and what the process is for: proofs, tests or wrong
        bodies. `used` has its seconds. The parts other than `proofs` and `wrong` are listed as scripts."""
        checks = Checks()
        for pid, work, seconds in ((1, ("one", "proof"), 60.0), (2, ("one", "wrong"), 30.0), (3, ("two", "tests"), 90.0), (4, ("one", "proof"), 6.0)):
            checks.works[pid, "0"] = work
            checks.used[pid, "0"] = seconds
        lines = figures(checks, {"proofs": 4.0, "program": 0.5, "wrong": 1.0, "host": 0.25}).splitlines()
        self.assertEqual([line.split() for line in lines[:4]], [
            ["processor", "minutes", "proof", "tests", "wrong"], ["one", "1.1", "0.0", "0.5"], ["two", "0.0", "1.5", "0.0"],
            ["sum", "1.1", "1.5", "0.5"],
        ])
        self.assertIn("scripts: program 0.5, host 0.2", lines)
        self.assertEqual(lines[-1], "processor minutes in all: 5.8: proof 1.1, tests 1.5, wrong 0.5, scripts 0.8, the rest 1.9")


class Sharing(unittest.TestCase):
    """How parts share processors."""

    def test_the_expected_minutes_follow_from_work_width_and_processors(self) -> None:
        # Each part has its processor minutes, and the least minutes of the clock. The last one can use all processors.
        narrow, long, wide = Part("n", (), 2, 1), Part("l", (), 1, 5), Part("w", (), 8, 1, ALL)
        self.assertEqual(minutes([narrow], 4), 2)
        self.assertEqual(minutes([narrow, narrow, narrow, narrow], 2), 4)
        self.assertEqual(minutes([narrow, narrow, long], 4), 5)
        self.assertEqual([minutes([wide], number) for number in (1, 2, 4, 16)], [8, 4, 2, 1])
        self.assertEqual(minutes([narrow, wide], 2), 6)

    def test_the_expected_minutes_of_a_part_that_runs_beside(self) -> None:
        """A part that runs beside others takes the time that they leave idle, and at least that of its last piece."""
        work, beside = Part("w", (), 8, 4, ALL), Part("b", (), 16, 2, ALL, is_beside=True)
        self.assertEqual([minutes_of([[work], [beside]], number) for number in (1, 2, 4, 8)], [[8, 16], [4, 8], [4, 2], [4, 2]])
        self.assertEqual(minutes_of([[work], [Part("s", (), 2, 2)], [beside]], 4), [4, 2, 2])
        self.assertEqual(minutes_of([[work], [Part("b", (), 40, 2, ALL, is_beside=True)]], 4), [4, 8])

    def test_the_time_for_some_crates_is_estimated_from_their_sizes(self) -> None:
        """The estimates for the wrong bodies of each crate add up to the one for all. The proofs of `mml_host` include
        those of all crates below it, so they take longer than those of `mml_ids`, which uses no other crate. An empty
        list stands for all crates."""
        self.assertAlmostEqual(sum(wrong_of([it]).work for it in uses()), WRONG.work)
        low, high = (proofs_of([it]).work for it in ("mml_ids", "mml_host"))
        self.assertTrue(0 < low < high < proofs_of([]).work == PROOFS.work, (low, high))

    def test_parts_run_side_by_side_but_a_part_as_wide_as_the_machine_runs_alone(self) -> None:
        """On one processor each part runs alone. On four, each of the three narrow parts waits until all of them have
        begun."""
        for processors in (1, 2, 4):
            with tempfile.TemporaryDirectory() as folder:
                log = Path(folder) / "log"
                waits = f'for _ in $(seq 3000); do [ "$(grep -c "begin [abc]" {log})" -lt 3 ] || break; sleep 0.1; done'
                line = f'echo "begin $0" >> {log}; sleep 0.3; %s; echo "end $0" >> {log}; echo 1 call'
                parts = [Part(name, (*SHELL, line % (waits if processors == 4 and width < ALL else ":"), name), 1, 1, width)
                         for name, width in (("a", 1), ("w", ALL), ("b", 1), ("c", 2))]
                ended = [it.part.name for it in Crew(Path(folder), processors).run(parts)]
                self.assertEqual(sorted(ended), ["a", "b", "c", "w"])
                lines = log.read_text(encoding="utf-8").splitlines()
                at = lines.index("begin w")
                self.assertEqual(lines[at + 1], "end w")
                # When `w` begins, each part that has begun has ended.
                beside = sum(1 if line.startswith("begin") else -1 for line in lines[:at])
                self.assertEqual(beside, 0)
                if processors == 1:
                    self.assertEqual([line.split()[1] for line in lines], [name for name in ended for _ in range(2)])
                if processors == 4:
                    self.assertEqual(sorted(lines[:3]), ["begin a", "begin b", "begin c"])

    def test_the_quick_parts_have_different_names_and_positive_times(self) -> None:
        names = [it.name for it in QUICK]
        self.assertEqual(len(set(names)), len(names))
        for it in QUICK:
            self.assertTrue(it.work > 0 and it.least > 0 and it.width > 0)

    def test_a_part_needs_a_browser_also_if_a_test_module_that_it_imports_does(self) -> None:
        """`test_folders` doesn't import the module `browser` itself, but `test_history`, which does."""
        needs = {it.name: it.needs for it in QUICK}
        self.assertEqual([name for name in ("class-desk", "class-folders", "class-history") if "browser" in needs[name]], ["class-folders", "class-history"])


if __name__ == "__main__":
    unittest.main()
