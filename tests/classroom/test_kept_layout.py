"""The layout in a run's folder: it is searched for only once, and a file that isn't a layout is ignored."""
from __future__ import annotations

import json
import random
import unittest
import unittest.mock

from classroom.core import lab as labs
from classroom.core.folders import LAYOUT
from classroom.core.networks import family
from classroom.pages import kept_layout, shapes, springs
from classroom.pages.layout import lay_out
from tests.classroom.help import InRoom


def lab(word: str, seed: int = 1) -> labs.Lab:
    """Returns a lab of one student, with a network of the family `word`, such as `grid:4x3`. The seed determines the
    links of a random network."""
    count, links = family(word, None, 0, random.Random(seed))
    return labs.Lab(1000, 2, ("t", "key"), {"s": "key"}, [labs.Node(node, ["s"]) for node in range(1, count + 1)], sorted(links))


class Kept(InRoom):
    """The folder of a run, and the layout in it."""

    def setUp(self) -> None:
        """Lets the test begin without known layouts. Afterwards forgets those that it computed, and restores the
        layouts that this process knew before."""
        super().setUp()
        self.addCleanup(shapes.kept_shape.cache_clear)
        self.addCleanup(springs.searched.cache_clear)
        known = unittest.mock.patch.dict(springs.KNOWN, clear=True)
        known.start()
        self.addCleanup(known.stop)

    def forget(self) -> None:
        """Forgets the layouts that this process has computed or read, as a new process would."""
        springs.KNOWN.clear()
        shapes.kept_shape.cache_clear()
        springs.searched.cache_clear()

    def test_a_kept_layout_spares_the_search_and_is_never_replaced(self) -> None:
        """A network whose layout is read from the file needs no search, but the same network with one link less does.
        Saving the layout of another network doesn't change the file."""
        made = lab("random:40:60")
        nodes = [node.id for node in made.nodes]
        first = lay_out(nodes, made.links)
        kept_layout.save(self.room, made)
        self.forget()
        kept_layout.load(self.room)
        with unittest.mock.patch.object(springs, "searched", side_effect=AssertionError("searched again")):
            self.assertEqual(lay_out(nodes, made.links), first)
            with self.assertRaisesRegex(AssertionError, "searched again"):
                lay_out(nodes, made.links[1:])
        before = (self.room / LAYOUT).read_bytes()
        kept_layout.save(self.room, lab("random:40:60", 2))
        self.assertEqual((self.room / LAYOUT).read_bytes(), before)

    def test_no_layout_is_kept_of_a_grid_a_tree_or_a_complete_graph(self) -> None:
        """Their positions need no search. With 12 nodes and 11 links, or 8 nodes and 28 links, a random network is a
        tree or complete."""
        for word in ("grid:4x3", "random:12:11", "random:8:28"):
            kept_layout.save(self.room, lab(word))
            self.assertEqual([*self.room.iterdir()], [], word)

    def test_a_missing_file_and_files_that_aren_t_layouts_are_ignored(self) -> None:
        """The last file has no error and is read, so the others are ignored because of their errors."""
        whole = {"links": [[1, 2], [2, 3], [1, 3], [3, 4]], "points": {"1": [0, 0], "2": [1, 0], "3": [0, 1], "4": [1, 1]}}
        texts = ["", "{", "[]", "null", '{"links":[]}', json.dumps(whole | {"points": [1]}), json.dumps(whole | {"links": [[1, "a"]]}),
                 json.dumps(whole | {"points": {"1": [0, 1e9]}}), json.dumps(whole | {"points": {"1": [0, float("nan")]}}), "[" * 100_000,
                 json.dumps(whole | {"points": {"x": [0, 0]}}), json.dumps(whole | {"points": {"1": [0, 0, 0]}})]
        for text in texts:
            (self.room / LAYOUT).write_text(text, encoding="utf-8")
            kept_layout.load(self.room)
            self.assertEqual(springs.KNOWN, {}, text[:80])
        (self.room / LAYOUT).write_text(json.dumps(whole), encoding="utf-8")
        kept_layout.load(self.room)
        self.assertEqual(len(springs.KNOWN), 1)
        (self.room / LAYOUT).unlink()
        kept_layout.load(self.room)


if __name__ == "__main__":
    unittest.main()
