"""The page of a run is readable: its texts have enough contrast in both themes, nothing is shown by colour alone, and
it can be printed."""
from __future__ import annotations

import base64
import re
import unittest
import zlib

from classroom.core.lab import read
from tests.classroom.browser import Played, pale, settle, show_as
from tests.classroom.runs import edited_run, examples, many_owners

# Returns each node with the name that is seen beside it, or an empty text.
OWNERS = """
const isSeen = (it) => it !== null && it.getClientRects().length > 0;
return [...document.querySelectorAll('.node')].map((node) => {
  const name = node.querySelector('.owner');
  return [Number(node.dataset.node), isSeen(name) ? name.textContent : ''];
});
"""
# Each state of a node, with what is drawn of it, without colours: how thick the ring and the rim are, whether they are there
# and full, and what stands in the frame of its rule.
STATES = """
const group = document.querySelector('#drawing .node'), part = (name) => group.querySelector(name);
const drawn = (it) => { const style = getComputedStyle(it); return [style.fill === 'none', style.stroke === 'none', style.display]; };
const found = [];
for (const [rule, chosen, married] of [['', '', 'false'], ['update', '', 'false'], ['update', 'update', 'false'], ['', '', 'true']]) {
  Object.assign(group.dataset, {rule, chosen, married});
  found.push([...drawn(part('.ring')), drawn(part('.pill'))[2]].join());
}
return found;
"""
# Returns how each kind of line is drawn, without its colour.
LINES = """
document.body.classList.add('witnessed');
return ['.links path', '.open path', 'path.pairs', 'path.pointer', 'path.removed'].map((kind) => {
  const style = getComputedStyle(document.querySelector(kind));
  return [style.strokeWidth, style.strokeDasharray];
});
"""


class Readable(Played):
    """Pages of short runs."""

    def setUp(self) -> None:
        """Opens the browser. Restores its usual theme after the test, since other tests use it too."""
        super().setUp()
        self.addCleanup(show_as, self.driver)

    def test_texts_have_enough_contrast_in_both_themes(self) -> None:
        """Checks the beginning, and the state after each seventh event. The themes have different backgrounds."""
        for lab, journal in (edited_run(self.room), *examples(self.room)):
            self.open(self.page(lab, journal))
            grounds = []
            for theme in ("light", "dark"):
                show_as(self.driver, theme)
                for place in range(0, len(journal.read_text().splitlines()) + 1, 7):
                    self.driver.execute_script("player.goTo(arguments[0])", place)
                    count, faint = pale(self.driver)
                    self.assertGreater(count, 40)
                    self.assertEqual(faint, [], (lab.name, theme, place))
                grounds.append(self.driver.execute_script("return getComputedStyle(document.body).backgroundColor"))
            self.assertEqual(len(set(grounds)), 2)

    def test_a_node_that_is_picked_names_all_its_owners(self) -> None:
        """The name beside a node may be cut, and a network of more than 30 nodes has no such names. The text about a
        node that is picked has them in full in any case."""
        for nodes in (8, 60):
            lab_file = many_owners(self.room, nodes)
            journal = self.room / "none.journal"
            journal.write_text("")
            self.open(self.page(lab_file, journal))
            lab = read(lab_file)
            with self.subTest(nodes=nodes):
                drawn = dict(self.driver.execute_script(OWNERS))
                self.assertEqual(len([name for name in drawn.values() if name]), nodes if nodes < 30 else 0)
                for node in lab.nodes:
                    whole = ", ".join(node.owners)
                    if name := drawn[node.id]:
                        self.assertTrue(whole.startswith(name.removesuffix("…")), (name, whole))
                for index in (0, 2, nodes - 1):
                    node = lab.nodes[index]
                    self.driver.execute_script("player.pick(arguments[0])", index)
                    self.assertEqual(self.driver.find_element("id", "story-name").text, f"Node {node.id} · {', '.join(node.owners)}")

    def test_kinds_of_lines_and_states_of_nodes_differ_also_without_colour(self) -> None:
        """This holds for large nodes and for the small ones of a network of 60. Only a married node looks like another
        one, since the line of its pair shows that it is married."""
        for nodes in (8, 60):
            journal = self.room / "none.journal"
            journal.write_text("")
            self.open(self.page(many_owners(self.room, nodes), journal))
            forms = [tuple(form) for form in self.driver.execute_script(LINES)]
            self.assertEqual(len(set(forms)), len(forms), (nodes, forms))
            states = self.driver.execute_script(STATES)
            self.assertEqual((len(set(states[:3])), states[3] == states[0]), (3, True), states)

    def test_it_prints_alike_in_both_themes(self) -> None:
        """The printed page has the legend but no controls, and its texts have enough contrast on paper."""
        lab, journal = edited_run(self.room)
        self.open(self.page(lab, journal), "#p=7")
        printed = []
        for theme in ("light", "dark"):
            show_as(self.driver, theme, "print")
            settle(self.driver)
            count, faint = pale(self.driver, on_paper=True)
            self.assertGreater(count, 40)
            self.assertEqual(faint, [], theme)
            self.assertFalse(self.driver.find_element("id", "play").is_displayed())
            self.assertTrue(self.driver.find_element("class name", "legend").is_displayed())
            show_as(self.driver, theme)
            settle(self.driver)
            printed.append(self.drawn(self.driver.execute_cdp_cmd("Page.printToPDF", {"printBackground": False})["data"]))
        self.assertEqual(printed[0], printed[1])
        self.assertGreater(len(b"".join(printed[0])), 5000)

    def drawn(self, document: str) -> list[bytes]:
        """Returns the decompressed streams of a PDF document that draw something. `document` has its bytes in Base64.
        Fails if there are none."""
        found = []
        for stream in re.findall(rb"stream\r?\n(.*?)\r?\nendstream", base64.b64decode(document), re.DOTALL):
            try:
                content = zlib.decompress(stream)
            except zlib.error:  # This stream isn't compressed.
                continue
            if re.search(rb"\bre\b|\bm\b", content) and b" rg\n" in content:  # forms, and a colour to fill them
                found.append(content)
        self.assertGreater(len(found), 0)
        return found


if __name__ == "__main__":
    unittest.main()
