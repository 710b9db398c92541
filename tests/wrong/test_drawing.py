"""Tests of random plants (`tools/plant`). A *plant* is a bug that the tool puts into the body of a function: a small
change of one line. The prover has to refuse it. Tested are finding the bodies, changing a line, drawing plants, and
asking the prover about them. Functions stand in for the prover and the compiler."""
from __future__ import annotations

import random
import tempfile
import threading
import time
import unittest
from pathlib import Path
from unittest import mock

from tools.plant import drawing
from tools.plant.bodies import bodies_of, bodies_of_file, module_of, type_of
from tools.plant.changes import changes_of, variants_of
from tools.plant.drawing import NO_PROGRAM, ask_all, ask_crate, culprits, draw
from tools.plant.plants import Plant, PlantFault
from tools.plant.proving import LET_THROUGH, REFUSED, UNDECIDED
from tools.wrong.checks import Running
from tools.wrong.libraries import Tree
from tools.wrong.outputs import Told

# A file with three bodies that can be changed: `count`, the first `is_over`, and `kind_of`.
SOURCE = """use crate::other::Thing;

/// Which it is.
pub enum Kind {
    First,
    Second,
    Other(u8),
}

impl<T: Drop> Thing<T> {
    /// Counts on.
    pub fn count(&mut self) -> u64
        ensures { result ≡ 1 + self.old.count }
    {
        self.count += 1;
        self.count
    }
}

impl<
    'a,
    T: Drop,
> Reader for Thing<'a, T> {
    fn is_over(&self) -> bool {
        self.count > 3 && !self.has_failed
    }
}

trait Reader {
    fn is_over(&self) -> bool
        ensures { true };
}

fn kind_of(
    first: u8,
    second: u8,
) -> Kind {
    // is it the first?
    if first < second { Kind::First } else { Kind::Second }
}

#[test]
fn counts() {
    assert_eq!(1 + 1, 2);
}
"""


class Bodies(unittest.TestCase):
    """Finding the bodies of functions."""

    def test_bodies_are_found_without_contracts_and_tests(self) -> None:
        """A method of a trait without a body, and a function with `#[test]`, have no body that may be changed."""
        lines = SOURCE.splitlines()
        found = {body.function: [line.strip() for line in lines[body.first : body.end]] for body in bodies_of_file("src/a/thing.rt", lines)}
        self.assertEqual(found, {
            "a::thing::Thing::count": ["self.count += 1;", "self.count"],
            "a::thing::ThingReader::is_over": ["self.count > 3 && !self.has_failed"],
            "a::thing::kind_of": ["// is it the first?", "if first < second { Kind::First } else { Kind::Second }"],
        })

    def test_a_function_has_the_name_that_the_prover_uses(self) -> None:
        """This name has the module, and the type followed by the trait."""
        self.assertEqual([module_of(file) for file in ("src/lib.rt", "src/main.rt", "src/a.rt", "src/a/b.rt")], ["", "", "a::", "a::b::"])
        self.assertEqual([type_of(what) for what in ("Hall<S>", "Engine for Local<S>", "Read for &mut Lines<Vec<u8>>", "a::Write for b::Sink")],
                         ["Hall", "LocalEngine", "LinesRead", "SinkWrite"])


class Changes(unittest.TestCase):
    """The results of a small change to a line."""

    def test_a_line_is_changed_in_each_way_outside_of_texts_and_comments(self) -> None:
        """The rows have a line and all its changes. An empty text means that the line is removed. A line with nothing
        to change has no changes."""
        kinds = {"Kind": ["First", "Second"]}
        for line, wanted in (
            ("    a < b && c", ["    a <= b && c", "    a < b || c"]),
            ("    if is_over {", ["    if !(is_over) {"]),
            ("    f(a, b)", ["    f(b, a)"]),
            ("    Kind::First", ["    Kind::Second"]),
            ("    Kind::First => Kind::Second,", ["    Kind::First => Kind::First,"]),
            ("    self.buffer.push(7);", ["    self.buffer.push(8);", ""]),
            ("    let x = true;", ["    let x = false;"]),
            ("    let trueish = a;", []),
            ('    print("a < b and true 7")', []),
            ("    // a < b", []),
            ("    x.0", []),
            ("    call(", []),
        ):
            with self.subTest(line):
                self.assertEqual(changes_of(line, kinds), wanted)

    def test_only_variants_without_values_are_found(self) -> None:
        self.assertEqual(variants_of(SOURCE), {"Kind": ["First", "Second"]})


class Drawing(unittest.TestCase):
    """Drawing plants in a tree with the crate `low`, and asking the prover about them."""

    def setUp(self) -> None:
        """Makes the tree, whose crate has the file `src/thing.rt` with the text SOURCE."""
        room = tempfile.TemporaryDirectory()
        self.addCleanup(room.cleanup)
        self.tree = Tree(Path(room.name), Path(room.name) / "kit", {"low": []})
        source = self.tree.folder("low") / "src/thing.rt"
        source.parent.mkdir(parents=True)
        source.write_text(SOURCE, encoding="utf-8")

    def test_the_same_seed_draws_the_same(self) -> None:
        """Also checks that each list has the plants of one function, that all three functions can be drawn, and that
        different seeds draw different changes."""
        first, again = (draw(self.tree, ["low"], 2, 5) for _ in range(2))
        self.assertEqual(first, again)
        self.assertEqual([len({plant.function for plant in plants}) for plants in first], [1, 1])
        self.assertEqual(len({plants[0].function for plants in first}), 2)
        self.assertEqual(len(draw(self.tree, ["low"], 99, 1)), 3)
        self.assertGreater(len({plants[0].edit.pairs for seed in range(20) for plants in draw(self.tree, ["low"], 3, seed)}), 6)

    def test_each_draw_changes_one_line_of_its_body(self) -> None:
        for seed in range(20):
            for plant in (plant for plants in draw(self.tree, ["low"], 3, seed) for plant in plants):
                pair, = plant.edit.pairs
                self.assertEqual(SOURCE.count(pair.old), 1)
                self.assertNotEqual(pair.old, pair.new)
                self.assertNotIn("ensures", pair.old)
                self.assertNotIn("assert", pair.old)

    def test_a_change_whose_new_line_is_in_another_body_is_left_out(self) -> None:
        """Several bodies of a file may be changed at once, so no new line may be in the file already. Here the only
        change of the body of `no` replaces `false` by `true`, but `yes` has this line. The three changes of the body of
        `other` are possible, because no body has their new lines."""
        lines = ["fn no() -> bool {", "    false", "}", "fn yes() -> bool {", "    true", "}", "fn other() -> bool {", "    1 < 2", "}"]
        no, _, other = bodies_of_file("src/lib.rt", lines)
        self.assertEqual(drawing.candidates(no, lines, {}), [])
        self.assertEqual(len(drawing.candidates(other, lines, {})), 3)

    def test_a_plant_is_blamed_for_an_error_in_its_function(self) -> None:
        """If the errors are in no function with a plant, all plants are blamed."""
        plants = [plants[0] for plants in drawing.drawn_in("low", self.tree.folder("low"), random.Random(3))]
        bodies = bodies_of(self.tree.folder("low"))
        for plant in plants:
            at = SOURCE[: SOURCE.index(plant.edit.pairs[0].old)].count("\n") + 1
            self.assertEqual(culprits(plants, bodies, [f"src/thing.rt:{at}:3: error: no such name"]), [plant])
        self.assertEqual(culprits(plants, bodies, ["src/thing.rt:1:1: error: no such name"]), plants)
        self.assertEqual(culprits(plants, bodies, ["error: something"]), plants)

    def verdicts(self, drawn: list[list[Plant]], bad: list[Plant], *told: Told) -> dict[str, tuple[Plant, str]]:
        """Asks about the plants `drawn`, a list for each function. Returns the plant of each function on which there is
        a verdict, and the verdict, by the function's name. The plants in `bad` don't compile. `told` are the outputs of
        the prover, one for each of its checks."""
        def look(_: Tree, __: str, texts: dict[str, str], ___: Running) -> str:
            """Returns a compiler's error if the texts have one of the plants in `bad`, or an empty text."""
            tried = [pair.new for plant in bad for pair in plant.edit.pairs if texts["src/thing.rt"].count(pair.new) != SOURCE.count(pair.new)]
            return "src/thing.rt:1:1: error: it has no such name\n" if tried else ""

        with mock.patch.object(drawing, "check_types", look), mock.patch.object(drawing, "ask_prover", side_effect=told):
            return {plant.function: (plant, verdict) for plant, verdict in ask_crate(self.tree, "low", drawn, "", Running())}

    def test_a_plant_does_not_compile_or_is_refused_or_let_through_or_undecided(self) -> None:
        plants = [plants[0] for plants in draw(self.tree, ["low"], 3, 1)]
        drawn = [[plant] for plant in plants]
        bad, refused, let_through = (plant.function for plant in plants)
        told = Told(proved={let_through}, open_goals={refused: ["returns"]}, ending=(2, 1))
        self.assertEqual(self.verdicts(drawn, plants[:1], told), {
            bad: (plants[0], NO_PROGRAM), refused: (plants[1], REFUSED), let_through: (plants[2], LET_THROUGH)})
        self.assertEqual({verdict for _, verdict in self.verdicts(drawn, [], Told(ending=(3, 0))).values()}, {UNDECIDED})

    def test_no_check_begins_if_a_library_is_not_built(self) -> None:
        with mock.patch.object(Tree, "missing", return_value=["itoa"]), mock.patch.object(drawing, "find_name", side_effect=AssertionError):
            self.assertRaisesRegex(PlantFault, "aren't built: itoa\\. ", list, ask_all(self.tree, draw(self.tree, ["low"], 3, 1)))

    def test_crates_are_asked_side_by_side_and_answer_in_order(self) -> None:
        high = self.tree.folder("high") / "src/thing.rt"
        high.parent.mkdir(parents=True)
        high.write_text(SOURCE, encoding="utf-8")
        self.tree.uses["high"] = []
        drawn, both = draw(self.tree, ["low", "high"], 99, 1), threading.Barrier(2, timeout=60)

        def answers(_: Tree, crate: str, plants: list[list[Plant]], __: str, ___: Running) -> list[tuple[Plant, str]]:
            """Returns for each function of a crate its first plant, with the crate's name as the verdict. The answers
            about `low` come last."""
            both.wait()  # raises if the crates are asked one after another
            if crate == "low":
                time.sleep(0.2)
            return [(plant[0], crate) for plant in plants]

        with mock.patch.object(drawing, "ask_crate", answers), mock.patch.object(drawing, "find_name", return_value=""), \
                mock.patch.object(drawing, "lane_count", return_value=2):
            self.assertEqual([*ask_all(self.tree, drawn)], [(plants[0], plants[0].crate) for plants in drawn])

    def test_a_plant_that_does_not_compile_gives_its_place_to_the_next(self) -> None:
        """If no plant of a function compiles, the last one is returned. The function `look` in `verdicts` knows a bad
        plant by its new line, so plants that remove a line aren't used here."""
        plants = next(plants for plants in draw(self.tree, ["low"], 3, 1) if len(plants) > 1 and all(plant.edit.pairs[0].new for plant in plants))
        name = plants[0].function
        told = Told(proved={name}, ending=(1, 1))
        self.assertEqual(self.verdicts([plants], plants[:1], told), {name: (plants[1], LET_THROUGH)})
        self.assertEqual(self.verdicts([plants], plants), {name: (plants[-1], NO_PROGRAM)})

    def test_an_undecided_plant_gives_its_place_to_the_next(self) -> None:
        """If the prover decides about no plant of a function, the first one that compiles is returned as undecided."""
        plants = next(plants for plants in draw(self.tree, ["low"], 3, 1) if len(plants) > 2 and all(plant.edit.pairs[0].new for plant in plants))[:3]
        name = plants[0].function
        decided, undecided = Told(open_goals={name: ["returns"]}, ending=(1, 0)), Told(ending=(1, 0))
        self.assertEqual(self.verdicts([plants], [], undecided, decided), {name: (plants[1], REFUSED)})
        self.assertEqual(self.verdicts([plants], plants[1:2], undecided, decided), {name: (plants[2], REFUSED)})
        self.assertEqual(self.verdicts([plants], [], undecided, undecided, undecided), {name: (plants[0], UNDECIDED)})
        self.assertEqual(self.verdicts([plants], plants[1:], undecided), {name: (plants[0], UNDECIDED)})

    def test_a_function_that_calls_a_refused_one_is_asked_about_again(self) -> None:
        """The first check has both plants. It refuses the one in the function below. About the function above it says
        only that it depends on the one below."""
        drawn = [plants[:1] for plants in draw(self.tree, ["low"], 2, 1)]
        (above,), (below,) = drawn
        first = Told(open_goals={below.function: ["returns"]}, resting={above.function}, ending=(2, 0))
        for again, wanted in ((Told(proved={above.function}, ending=(1, 1)), LET_THROUGH), (first, UNDECIDED)):
            self.assertEqual(self.verdicts(drawn, [], first, again), {below.function: (below, REFUSED), above.function: (above, wanted)})


if __name__ == "__main__":
    unittest.main()
