"""Tests of `tools/wrong`, the tool for wrong bodies. An *edit* puts a wrong body into a function, and names the *goal*,
a part of the function's contract, at which the prover has to refuse it. A *round* is a group of edits that one check of
the prover tries together. Tested is each way in which the tool has to fail, with stored outputs of the prover and with
the prover itself.

    python3 -B -m unittest tests.wrong.test_wrong      a minute of processor time; needs the toolchain and no library
"""
from __future__ import annotations

import shutil
import tempfile
import unittest
from pathlib import Path

from tools.wrong.checks import Running, Stopped, lane_count
from tools.wrong.edits import Edit, EditFault, Pair, Refusal, parse_edit, read_edits, rounds_of
from tools.wrong.judging import Judged, judge
from tools.wrong.libraries import parse_uses, tree_at
from tools.wrong.outputs import read_output
from tools.wrong.trying import Tried, try_crate

TOP = Path(__file__).resolve().parents[2]
KEPT = Path(__file__).with_name("kept")
CRATE = "mml_ends"
FILE = "src/retrying.rt"
# Edits of the crate as it was when the outputs in the folder `kept` were made: one that is refused at its goal, one
# that doesn't change the meaning, one that is refused at another goal than it names, the same with the right goal, and
# one that doesn't compile.
NEVER = Edit(
    "interrupted_is_never.edit",
    (Refusal("retrying::is_interrupted", "returns"),),
    (Pair(FILE, "    error.kind() == ErrorKind::Interrupted", "    error.kind() == ErrorKind::TimedOut"),),
)
SAME = Edit(
    "means_the_same.edit",
    (Refusal("retrying::is_out_of_memory", "returns"),),
    (Pair(FILE, "Ok(_) => false", "Ok(_) => 2 < 1"),),
)
ELSEWHERE = Edit(
    "refused_at_another_goal.edit",
    (Refusal("retrying::Retrying::new", "returns-clause-inner"),),
    (Pair(FILE, "            lacked_memory: false,", "            lacked_memory: true,"),),
)
THERE = Edit(ELSEWHERE.name, (Refusal("retrying::Retrying::new", "returns-clause-lacked_memory"),), ELSEWHERE.pairs)
UNTYPED = Edit("is_no_truth_value.edit", NEVER.wanted, (Pair(FILE, NEVER.pairs[0].old, "    error.kind()"),))
# Edits of the crate as it is, for the prover itself: one that is refused at its goal, one that doesn't change the
# meaning, and one that doesn't compile.
OTHER_KIND = Edit(
    "another_kind_of_failure.edit",
    (Refusal("retrying::failed_by", "returns-in-Err"),),
    (Pair(FILE, "        Err(error) => error.kind() == kind,", "        Err(error) => error.kind() != kind,"),),
)
SAME_FLUSH = Edit(
    SAME.name,
    (Refusal("retrying::RetryingWrite::flush", "returns"),),
    (Pair(FILE, "        self.inner.flush()", "        let flushed = self.inner.flush(); flushed"),),
)
UNTYPED_KIND = Edit(UNTYPED.name, OTHER_KIND.wanted, (Pair(FILE, OTHER_KIND.pairs[0].old, "        Err(error) => error.kind(),"),))


def text_of(edit: Edit) -> str:
    """Returns the text of an edit's file."""
    lines = [it.line() for it in edit.wanted]
    for pair in edit.pairs:
        lines += [f"file: {pair.file}", f"old: {pair.old}", f"new: {pair.new}"]
    return "\n".join(lines) + "\n"


def kept(name: str) -> str:
    """Returns the stored output of the prover with this name."""
    return (KEPT / name).read_text(encoding="utf-8")


def judged(output: str, *edits: Edit, status: int = 1) -> Judged:
    """Returns the tool's verdict on these edits if a check of them has this output and status."""
    return judge(list(edits), status, read_output(CRATE, output))


class Judging(unittest.TestCase):
    """Verdicts on stored outputs. In `three_bodies.txt` the first of three functions is refused, the second proved, and
    the third refused at one goal. A verdict has faults of single edits (`of_edit`), and faults of the round
    (`of_round`), for which all its edits fail."""

    def test_edits_that_are_refused_at_their_goals_have_no_fault(self) -> None:
        output = kept("three_bodies.txt")
        found = judged(output, NEVER, THERE)
        self.assertEqual((found.of_round, found.of_edit), ([], {}))

    def test_an_edit_fails_if_its_function_is_still_proved(self) -> None:
        """The other edits of the round don't fail."""
        found = judged(kept("three_bodies.txt"), NEVER, SAME, THERE)
        self.assertEqual(found.of_round, [])
        self.assertEqual(
            found.of_edit,
            {SAME.name: ["retrying::is_out_of_memory is still proved: this body means the same, or no clause tells the two apart"]},
        )
        self.assertEqual(found.failed([NEVER, SAME, THERE]), [SAME.name])

    def test_an_edit_fails_if_it_is_refused_at_another_goal(self) -> None:
        """The message has the line that the edit should have."""
        found = judged(kept("three_bodies.txt"), NEVER, ELSEWHERE)
        self.assertEqual(
            found.of_edit,
            {
                ELSEWHERE.name: [
                    "retrying::Retrying::new is not refused at returns-clause-inner; the correct line would be: "
                    "'# refused: retrying::Retrying::new returns-clause-lacked_memory'"
                ]
            },
        )

    def test_all_edits_fail_if_a_function_is_refused_that_none_names(self) -> None:
        found = judged(kept("three_bodies.txt"), NEVER)
        self.assertEqual(
            found.of_round,
            [
                "retrying::Retrying::new is refused, and no edit names it; the correct line would be: "
                "'# refused: retrying::Retrying::new returns-clause-lacked_memory'"
            ],
        )
        self.assertEqual(found.failed([NEVER]), [NEVER.name])

    def test_all_edits_fail_if_one_does_not_compile(self) -> None:
        """The compiler's error is in the message."""
        found = judged(kept("not_compiled.txt"), UNTYPED, THERE)
        self.assertEqual(
            found.of_round,
            ["an error that belongs to no goal: src/retrying.rt:117:5: error[mismatched-types]: expected `bool`, found `ErrorKind`"],
        )
        self.assertEqual(found.failed([UNTYPED, THERE]), [UNTYPED.name, THERE.name])

    def test_an_error_in_a_proof_about_a_missing_name_is_no_refusal(self) -> None:
        """This error occurs if a proof uses a name that the edit has removed."""
        line = "./proofs/retrying/is_interrupted/Answers.antt:9:5: error: `returns`: `c.kind` has no field `new`\n"
        found = judged(line + kept("three_bodies.txt"), NEVER, THERE)
        self.assertEqual(found.of_round, [f"an error that belongs to no goal: {line.strip()}"])

    def test_an_error_without_a_line_fails_the_round(self) -> None:
        """For example, if the borrow checker rejects a body, the prover doesn't read the file of the function's
        answers."""
        for line in ("./proofs/a/f/Answers.antt: error: rattle does not read `Answers.antt` of `mml_ends::a::f`",
                     "rattle: error: `mml_ends` has no function `f`"):
            found = judged(f"{line}\n{kept('three_bodies.txt')}", NEVER, THERE)
            self.assertEqual(found.of_round, [f"an error that belongs to no goal: {line}"])

    def test_an_error_in_the_answer_to_a_goal_is_a_refusal_at_this_goal(self) -> None:
        """The answer is the part of a proof that has shown this goal."""
        line = "./proofs/retrying/Retrying/new/Answers.antt:9:5: error: `returns-clause-inner`: `search`: no proof of `a ≡ b` was found\n"
        found = judged(line + kept("three_bodies.txt"), NEVER, ELSEWHERE)
        self.assertEqual((found.of_round, found.of_edit), ([], {}))

    def test_a_goal_in_the_proof_of_a_cycle_of_calls_belongs_to_its_function(self) -> None:
        """Functions that call each other have one proof, in which the name of a goal begins with that of its
        function."""
        told = read_output(CRATE, "./proofs/reading/+nested/Answers.antt:53:9: error: `read_value-returns-in_ok-found`: the two types differ\n")
        self.assertEqual((told.open_goals, told.errors), ({"reading::read_value": ["read_value-returns-in_ok-found"]}, []))

    def test_an_answer_that_depends_on_a_wrong_one_is_no_further_fault(self) -> None:
        line = "./proofs/retrying/Retrying/new/Answers.antt:9:5: error: 1 declaration that depends on `a`, which was rejected, was not checked: b\n"
        self.assertEqual(judged(line + kept("three_bodies.txt"), NEVER, THERE).of_round, [])

    def test_a_caller_of_a_refused_function_needs_no_edit(self) -> None:
        """Such a function isn't proved only because it depends on the refused one."""
        output = kept("three_bodies.txt").replace("is_out_of_memory: proved", "is_out_of_memory: no proof: it calls `a::b`, which is not proved")
        found = judged(output.replace("only=3 proved=1", "only=3 proved=0"), NEVER, THERE)
        self.assertEqual(found.of_round, [])

    def test_closures_are_not_counted_as_functions(self) -> None:
        """The prover prints lines about them, but its counts don't include them."""
        line = f"fn {CRATE}::retrying::fn::is_interrupted::any: proved\nfn {CRATE}::retrying::fn::is_interrupted::any+FnMut::call_mut: proved\n"
        self.assertEqual(judged(line + kept("three_bodies.txt"), NEVER, THERE).of_round, [])

    def test_a_function_that_may_wait_counts_as_proved(self) -> None:
        """The prover says so about an async function, and about a closure that depends on its callers."""
        for said in ("proved, may wait", "proved where its callers give what it asks, may wait"):
            output = kept("three_bodies.txt").replace("is_out_of_memory: proved", f"is_out_of_memory: {said}")
            self.assertEqual(judged(output, NEVER, THERE).of_round, [])

    def test_a_function_without_a_verdict_fails_the_round(self) -> None:
        output = kept("three_bodies.txt").replace("is_out_of_memory: proved", "is_out_of_memory: could not tell")
        found = judged(output, NEVER, THERE, status=3)
        self.assertIn("retrying::is_out_of_memory is not proved, and no edit names it", found.of_round)

    def test_counts_that_do_not_fit_and_other_statuses_fail_the_round(self) -> None:
        """The last line of an output has the counts. It is missing if the check was killed."""
        output = kept("three_bodies.txt")
        self.assertIn("the counts don't fit: only=4 proved=1", judged(output.replace("only=3", "only=4"), NEVER, THERE).of_round[0])
        self.assertIn("the counts don't fit: only=3 proved=2", judged(output.replace("proved=1", "proved=2"), NEVER, THERE).of_round[0])
        cut = output.replace("only=3 proved=1", "antt: killed")
        self.assertEqual(judged(cut, NEVER, THERE, status=-9).of_round, ["the check didn't finish: antt: killed"])
        self.assertEqual(judged(output, NEVER, THERE, status=3).of_round, ["the check ended with status 3, and not 1"])
        self.assertEqual(judged("", NEVER, status=-9).of_round, ["the check didn't finish: "])


class Reading(unittest.TestCase):
    """Reading edits from their files, and forming rounds."""

    def setUp(self) -> None:
        """Makes a crate with one file."""
        room = tempfile.TemporaryDirectory()
        self.addCleanup(room.cleanup)
        self.folder = Path(room.name)
        for part in ("src", "wrong"):
            (self.folder / part).mkdir()
        (self.folder / "src/lib.rt").write_text("one\ntwo\ntwo\nthree\n", encoding="utf-8")

    def write(self, name: str, *lines: str) -> None:
        """Writes the file of the edit `name` with these lines."""
        (self.folder / "wrong" / name).write_text("".join(f"{it}\n" for it in lines), encoding="utf-8")

    def test_all_parts_of_an_edit_are_read(self) -> None:
        """An edit may name several refused functions, and a new text may be empty."""
        self.assertEqual(parse_edit(NEVER.name, text_of(NEVER)), NEVER)
        two = parse_edit("two.edit", "# refused: a b\n# refused: c d\nfile: src/lib.rt\nold: x\nnew:\n")
        self.assertEqual(two.wanted, (Refusal("a", "b"), Refusal("c", "d")))
        self.assertEqual(two.pairs, (Pair("src/lib.rt", "x", ""),))

    def test_an_edit_with_a_missing_or_wrong_line_is_an_error(self) -> None:
        for text, said in (
            ("file: src/lib.rt\nold: one\nnew: 1\n", "no line '# refused: FUNCTION GOAL'"),
            ("# refused: f\nfile: src/lib.rt\nold: one\nnew: 1\n", "this line doesn't have the form '# refused: FUNCTION GOAL'"),
            ("# refused: f g\nfile: src/lib.rt\nold: one\n", "no complete pair"),
            ("# refused: f g\nfile: proofs/f/Answers.antt\nold: one\nnew: 1\n", "no complete pair .* of src/"),
            ("# refused: f g\nfile: src/lib.rt\nold: one\nmore\nnew: 1\n", "a line of an unknown kind: more"),
            ("# refused: f g\n# round: 1\nfile: src/lib.rt\nold: one\nnew: 1\n", "this line doesn't have the form '# round: NUMBER'"),
        ):
            with self.assertRaisesRegex(EditFault, said):
                parse_edit("it.edit", text)

    def test_an_edit_whose_old_text_does_not_occur_once_is_reported(self) -> None:
        """So are files with another ending, and edits of other folders. The other edits are tried."""
        self.write("good.edit", "# refused: f g", "file: src/lib.rt", "old: one", "new: 1")
        self.write("twice.edit", "# refused: f g", "file: src/lib.rt", "old: two", "new: 2")
        self.write("gone.edit", "# refused: f g", "file: src/lib.rt", "old: four", "new: 4")
        self.write("outside.edit", "# refused: f g", "file: src/lib.rt", "old: one", "new: 1", "file: specs/Lib.antt", "old: one", "new: 1")
        self.write("notes.txt")
        edits, faults = read_edits(self.folder)
        self.assertEqual([it.name for it in edits], ["good.edit"])
        self.assertEqual(
            faults,
            [
                "gone.edit: a text occurs 0 times in src/lib.rt, but it has to occur once: four",
                "notes.txt: an edit's name ends in .edit",
                "outside.edit: there is no such file in src/ or proofs/: specs/Lib.antt",
                "twice.edit: a text occurs 2 times in src/lib.rt, but it has to occur once: two",
            ],
        )

    def test_edits_of_the_same_function_or_text_are_in_different_rounds(self) -> None:
        """Here a and c have the same function, a and d the same text, and so have b and c."""
        self.write("a.edit", "# refused: f g", "file: src/lib.rt", "old: one", "new: 1")
        self.write("b.edit", "# refused: h g", "file: src/lib.rt", "old: three", "new: 3")
        self.write("c.edit", "# refused: f k", "file: src/lib.rt", "old: three", "new: tree")
        self.write("d.edit", "# refused: i g", "file: src/lib.rt", "old: one", "new: won")
        edits, faults = read_edits(self.folder)
        rounds = rounds_of(edits, self.folder)
        self.assertEqual(faults, [])
        self.assertEqual([[it.name for it in one.edits] for one in rounds], [["a.edit", "b.edit"], ["c.edit", "d.edit"]])
        self.assertEqual(rounds[0].texts, {"src/lib.rt": "1\ntwo\ntwo\n3\n"})

    def test_an_edit_with_a_round_is_not_in_an_earlier_one(self) -> None:
        """The line `# round: 2` means that the edit is in the first round from the second one on that can take it."""
        self.write("a.edit", "# refused: f g", "# round: 2", "file: src/lib.rt", "old: one", "new: 1")
        self.write("b.edit", "# refused: h g", "file: src/lib.rt", "old: three", "new: 3")
        self.write("c.edit", "# refused: h k", "file: src/lib.rt", "old: three", "new: tree")
        self.write("d.edit", "# refused: h l", "# round: 2", "file: src/lib.rt", "old: three", "new: thee")
        edits, faults = read_edits(self.folder)
        self.assertEqual((faults, [it.first for it in edits]), ([], [2, 1, 1, 2]))
        rounds = rounds_of(edits, self.folder)
        self.assertEqual([[it.name for it in one.edits] for one in rounds], [["b.edit"], ["c.edit", "a.edit"], ["d.edit"]])

    def test_comments_in_the_list_of_crates_are_left_out(self) -> None:
        """The kind of a crate, a word after its name, is left out too."""
        self.assertEqual(parse_uses("# all\nlow: io # words\n\nffi staticlib: low\n"), {"low": ["io"], "ffi": ["low"]})


class Trying(unittest.TestCase):
    """The real prover, with a copy of the smallest crate that has wrong bodies."""

    def try_edits(self, *edits: Edit) -> Tried:
        """Tries these edits of the crate with the real prover. Returns the result."""
        with tempfile.TemporaryDirectory() as room:
            top, folder = Path(room), Path(room) / "crates" / CRATE
            for part in ("src", "proofs"):
                shutil.copytree(TOP / "crates" / CRATE / part, folder / part)
            (top / "crates.txt").write_text(f"{CRATE}:\n", encoding="utf-8")
            (folder / "wrong").mkdir()
            for edit in edits:
                (folder / "wrong" / edit.name).write_text(text_of(edit), encoding="utf-8")
            return try_crate(tree_at(top), CRATE, Running())

    def test_one_check_of_three_edits_finds_the_two_that_fail(self) -> None:
        """One is refused at its goal, one doesn't change the meaning, and one is refused at another goal."""
        tried = self.try_edits(OTHER_KIND, SAME_FLUSH, ELSEWHERE)
        self.assertEqual((tried.checks, tried.passed, tried.failed), (1, 1, 2))
        self.assertEqual(len(tried.faults), 2)
        self.assertIn("means_the_same.edit: retrying::RetryingWrite::flush is still proved", tried.faults[0])
        self.assertIn("refused_at_another_goal.edit: ", tried.faults[1])
        self.assertIn("'# refused: retrying::Retrying::new returns-clause-lacked_memory'", tried.faults[1])
        self.assertGreater(tried.seconds, 0)

    def test_an_edit_that_does_not_compile_fails(self) -> None:
        tried = self.try_edits(UNTYPED_KIND)
        self.assertEqual((tried.checks, tried.passed, tried.failed), (1, 0, 1))
        self.assertRegex(tried.faults[0], r"an error that belongs to no goal: src/retrying\.rt:\d+:\d+: error\[mismatched-types\]")

    def test_nothing_is_tried_if_a_library_below_is_not_built(self) -> None:
        with tempfile.TemporaryDirectory() as room:
            top, folder = Path(room), Path(room) / "crates/above"
            for part in ("src", "wrong"):
                (folder / part).mkdir(parents=True)
            (folder / "src/lib.rt").write_text("one\n", encoding="utf-8")
            (folder / "wrong/it.edit").write_text("# refused: f g\nfile: src/lib.rt\nold: one\nnew: 1\n", encoding="utf-8")
            (top / "crates.txt").write_text("below:\nabove: below\n", encoding="utf-8")
            tried = try_crate(tree_at(top), "above", Running())
        self.assertEqual((tried.checks, tried.passed, tried.failed), (0, 0, 1))
        self.assertEqual(tried.faults, ["these libraries aren't built: below. `rt ci` or `rt check` builds them"])

    def test_one_lane_exists_and_no_check_begins_after_a_stop(self) -> None:
        """A lane runs one check after another."""
        self.assertEqual(lane_count(1), 1)
        running = Running()
        running.stop()
        with self.assertRaises(Stopped):
            running.run(["true"], TOP)


if __name__ == "__main__":
    unittest.main()
