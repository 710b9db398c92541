"""The page for all networks of a class in a real browser: its contents for each state, in four windows and both
themes. Its server is the *hall*. The page has an `article` for each network. There is one address to look at, and one
at which the teacher can also act."""
from __future__ import annotations

import random
import tempfile
import unittest
from collections.abc import Sequence
from pathlib import Path
from typing import Any

from classroom.core import lab as labs
from classroom.core.class_state import ClassState, NetworkState
from classroom.core.networks import Links, family
from classroom.pages import hall
from tests.classroom.browser import browser, is_ready, show_as, until
from tests.classroom.help import a_port
from tests.classroom.test_shown import WINDOWS, check_readable, resize

DOWN = "its server was killed; type `resume 2` to continue it, or `end 2` to give it up"
NODES = """
return [...document.querySelectorAll(`article[data-number="${arguments[0]}"] .node`)].map((it) => ({...it.dataset}));
"""
# Returns for each drawing its box and those of its discs, in pixels of the window.
BOXES = """
const box = (it) => { const {left, top, right, bottom} = it.getBoundingClientRect(); return [left, top, right, bottom]; };
return [...document.querySelectorAll('article svg')].map((svg) => [box(svg), [...svg.querySelectorAll('.node')].map((it) => box(it.querySelector('.disc')))]);
"""
# Collects what a screen reader says, which is each new text of the live regions.
LISTEN = """
window.heard = [];
for (const region of document.querySelectorAll('[aria-live], [role=status]')) {
  new MutationObserver((changes) => {
    for (const change of changes) for (const node of change.addedNodes) window.heard.push(node.textContent);
  }).observe(region, {childList: true, subtree: true});
}
"""


def network(word: str, count: int | None) -> tuple[labs.Lab, Links]:
    """Returns a lab of the family `word` with `count` nodes, and its links."""
    size, links = family(word, count, 0, random.Random(1))
    nodes = [labs.Node(node, [f"s{node}"]) for node in range(1, size + 1)]
    return labs.Lab(1000, 16, ("t", "key"), {f"s{node}": "key" for node in range(1, size + 1)}, nodes, links), links


def state_of(links: Links, nodes: int, privileged: Sequence[Sequence[Any]], pairs: Links, rows: Sequence[Sequence[Any]]) -> dict[str, Any]:
    """Returns the state of a network in the form that its run writes (`classroom.core.class_state`). `links` are its
    links, and `nodes` is the number of its nodes. `privileged` has each node at which a rule can be applied, with this
    rule, and `pairs` has the pairs of the matching. Each row is a node with its p, its m, and the rule of its chosen
    move. For nodes that aren't in `rows`, p is null and m is false."""
    told = {row[0]: row for row in rows}
    return {"configuration": 3, "stable": not privileged, "privileged": privileged, "pairs": [list(pair) for pair in pairs], "open": 2, "moves": 4,
            "most": 70, "events": 9, "limit": 100, "closing": "by-hand", "waiting": [], "missing": ["Zoë M.", "Jonas E."], "idle": [],
            "links": [list(link) for link in links], "nodes": [told.get(node, [node, None, False, None]) for node in range(1, nodes + 1)]}


class Page(unittest.TestCase):
    """A class of four networks, one of which is down and one stable."""

    def setUp(self) -> None:
        """Starts the hall, and gives it the state. Network 2 is down and network 3 is stable."""
        self.driver: Any = browser()
        self.addCleanup(resize, self.driver, None)
        self.addCleanup(show_as, self.driver)
        room = tempfile.TemporaryDirectory()
        self.addCleanup(room.cleanup)
        self.labs = [network("grid:4x3", None), network("tree", 15), network("cycle", 8), network("random:12:18", None)]
        rows: list[list[Any]] = [[5, 1, True, None], [1, 5, True, None], [2, None, False, "seduction"], [4, 8, False, None]]
        states = [state_of(self.labs[0][1], 12, [[2, "seduction"], [7, "update"]], [(1, 5)], rows), None,
                  state_of(self.labs[2][1], 8, [], [(1, 2)], []), state_of(self.labs[3][1], 12, [[1, "update"]], [], [[1, None, True, None]])]
        # The networks 1 and 2 are in room A, and 3 and 4 in room B.
        self.state = ClassState("maths, 2026-11-28", [
            NetworkState(number, f"maths-{number}", "AB"[number // 3], 4710 + number, f"http://127.0.0.1:9/{number}/", 15, 4,
                         "down" if number == 2 else "runs", DOWN if number == 2 else "", states[number - 1]) for number in range(1, 5)
        ], [f"maths-1: configuration {number}: 5 (Zoë M.) update" for number in range(1, 9)])
        self.hall = hall.open_hall(a_port(), self.state.title, lambda line: None, self.state, None,
                                   lambda: [hall.view(Path(room.name), lab) for lab, _ in self.labs])
        self.addCleanup(self.hall.close)

    def open(self, address: str) -> None:
        """Loads the page at an address again."""
        self.driver.get(address)
        until(self.driver, is_ready)

    def texts(self, of: str) -> list[str]:
        """Returns the visible texts of the elements with this selector, one for each network."""
        return [it.text for it in self.driver.find_elements("css selector", f"article {of}")]

    def test_texts_and_drawings_show_the_state_of_each_network(self) -> None:
        """The drawing of network 1 is checked in full: the data of its nodes, its one arrow, and the letters of its
        rules."""
        self.open(self.hall.address)
        self.assertEqual(self.texts(".state"), ["2 nodes can move", "Down", "At rest", "1 node can move"])
        self.assertEqual(self.texts(".facts")[0], "1 pair · step 3 · 4 of at most 70 moves")
        self.assertEqual(self.texts(".missing")[0], "missing: Zoë M., Jonas E.")
        drawn = {int(node["node"]): node for node in self.driver.execute_script(NODES, 1)}
        self.assertEqual(len(drawn), 12)
        clean = {"p": "", "m": "false", "married": "false", "rule": "", "chosen": ""}
        wanted = {1: {"p": "5", "m": "true", "married": "true"}, 5: {"p": "1", "m": "true", "married": "true"}, 2: {"rule": "seduction", "chosen": "seduction"},
                  7: {"rule": "update"}, 4: {"p": "8"}}
        self.assertEqual(drawn, {node: {"node": str(node)} | clean | wanted.get(node, {}) for node in range(1, 13)})
        arrows = self.driver.execute_script("return document.querySelectorAll('article[data-number=\"1\"] path.pointer[d]').length")
        self.assertEqual(arrows, 1)  # From 4 to 8. The pair 1 and 5 has a line in place of its arrows.
        letters = [it.text for it in self.driver.find_elements("css selector", "article[data-number='1'] .rule") if it.text]
        self.assertEqual(letters, ["✓S", "U"])  # The seduction of node 2 is chosen, and node 7 could update.

    def test_a_network_whose_server_was_killed_has_a_red_border_and_says_what_helps(self) -> None:
        self.open(self.hall.address)
        down = self.driver.find_element("css selector", "article.down")
        self.assertEqual(down.find_element("class name", "alarm").text, DOWN)
        red = self.driver.execute_script("return getComputedStyle(arguments[0]).borderTopColor", down)
        self.assertEqual(red, "rgb(176, 0, 32)")

    def test_texts_can_be_read_and_nodes_fit_into_drawings_in_four_windows_and_both_themes(self) -> None:
        """On a laptop the page to look at also fits into the window without scrolling."""
        for address in (self.hall.address, self.hall.address_to_act):
            for size in WINDOWS:
                resize(self.driver, size)
                for theme in ("light", "dark"):
                    show_as(self.driver, theme)
                    self.open(address)
                    with self.subTest(size=size, theme=theme):
                        check_readable(self, self.driver, size, 40)
                        for root, discs in self.driver.execute_script(BOXES):
                            for left, top, right, bottom in discs:
                                self.assertTrue(root[0] <= left and root[1] <= top and right <= root[2] and bottom <= root[3])
        resize(self.driver, WINDOWS[1])
        self.open(self.hall.address)
        self.assertLessEqual(self.driver.execute_script("return document.documentElement.scrollHeight"), WINDOWS[1][1])

    def test_a_screen_reader_says_each_change_once_and_the_focus_stays(self) -> None:
        """A new state doesn't replace unchanged elements, so the button with the keyboard's focus keeps it."""
        self.open(self.hall.address_to_act)
        self.driver.execute_script(LISTEN)
        self.driver.find_element("css selector", "article[data-number='1'] button").send_keys("")
        self.driver.execute_script("document.querySelector('article[data-number=\"1\"] button').focus()")
        self.state.lines = [*self.state.lines, "maths-1: stable after 4 moves"]
        network_state = self.state.networks[0].state
        assert network_state is not None
        network_state |= {"stable": True, "privileged": [], "configuration": 4}
        self.hall.show(self.state, self.state)
        until(self.driver, lambda driver: self.texts(".state")[0] == "At rest")
        self.state.networks[0].seats = 14  # The page doesn't show this number, so nothing may be said.
        self.hall.show(self.state, self.state)
        self.state.lines = [*self.state.lines, "maths-1: the end"]
        self.hall.show(self.state, self.state)
        until(self.driver, lambda driver: "maths-1: the end" in self.driver.execute_script("return window.heard"))
        self.assertEqual(sorted(self.driver.execute_script("return window.heard")),
                         ["maths-1: stable after 4 moves", "maths-1: the end", "maths-2 is down, 2 of 4 networks at rest"])
        self.assertEqual(self.driver.execute_script("return document.activeElement.dataset.line"), "1: close")


if __name__ == "__main__":
    unittest.main()
