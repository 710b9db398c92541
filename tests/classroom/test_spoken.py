"""The page of a run for people who don't see it, or who prefer that nothing moves: the texts that it announces to
screen readers, and reduced motion."""
from __future__ import annotations

import unittest
from typing import Any

from selenium.webdriver.common.keys import Keys

from tests.classroom.browser import Played, shown, until
from tests.classroom.runs import examples

# Collects each new text of the live regions, in order.
LISTEN = """
window.heard = [];
for (const region of document.querySelectorAll('[aria-live], [role=status]')) {
  new MutationObserver((changes) => {
    for (const change of changes) for (const node of change.addedNodes) window.heard.push(node.textContent);
  }).observe(region, {childList: true, subtree: true, characterData: true});
}
"""
# Shows all events one after another without a pause, like a run that is played at the highest speed.
ALL = "for (let at = 0; at <= player.last; at += 1) player.goTo(at, true);"
# Returns the arrows immediately after a step in which pointers change, those at the end of the animation, and the
# duration of a disc's transition.
GROWN = """
const {drawing} = player, at = player.run.frames.findIndex((row, index) => index > 0 && row.kind === 'close' && (row.registers || []).some(([, p]) => p >= 0));
player.goTo(at - 1);
player.goTo(at, true);
const arrows = () => drawing.arrows.map((path) => path.getAttribute('d')).join('|'), now = arrows();
drawing.finish();
return [now, arrows(), getComputedStyle(document.querySelector('#drawing .disc')).transitionDuration];
"""


class Spoken(Played):
    """The page of the run of the grid of `examples/`."""

    def setUp(self) -> None:
        """Opens the browser. Resets its preference about motion after the test, since other tests use it too."""
        super().setUp()
        self.addCleanup(self.prefer_motion)

    def prefer_motion(self, motion: str = "no-preference") -> None:
        """Emulates a reader who has no preference about motion, or prefers less of it if `motion` is `reduce`."""
        self.driver.execute_cdp_cmd("Emulation.setEmulatedMedia", {"features": [{"name": "prefers-reduced-motion", "value": motion}]})

    def heard(self, count: int) -> list[str]:
        """Waits until the page has announced at least `count` texts since LISTEN, and returns all of them."""
        until(self.driver, lambda driver: len(driver.execute_script("return window.heard")) >= count)
        found: list[str] = self.driver.execute_script("return window.heard")
        return found

    def expected(self) -> str:
        """Returns the text that the page has to announce for the step that it shows."""
        root = shown(self.driver)[0]
        state = self.driver.find_element("id", "told").text
        pairs = int(root["pairs"])
        return f"step {root['number']}: {state}, {pairs} pair{'' if pairs == 1 else 's'}"

    def test_a_new_state_is_announced_once(self) -> None:
        """A run that is played without a pause is announced only at its end. A state that is left and shown again at
        once isn't announced again."""
        lab, journal = next(each for each in examples(self.room) if each[0].stem == "grid")
        self.open(self.page(lab, journal))
        first = self.expected()
        until(self.driver, lambda driver: driver.find_element("id", "said").get_attribute("textContent") == first)
        self.driver.execute_script(LISTEN)
        self.driver.execute_script(ALL)
        said = [self.expected()]
        self.assertEqual(self.heard(1), said)
        self.driver.execute_script("player.goTo(player.last - 1); player.goTo(player.last)")
        self.press(Keys.HOME)
        said.append(self.expected())
        self.assertEqual(self.heard(2), said)
        self.press(Keys.ARROW_DOWN)
        said.append(self.expected())
        self.assertEqual(self.heard(3), said)
        self.assertEqual(len(set(said)), 3)

    def test_nothing_moves_for_a_reader_who_prefers_reduced_motion(self) -> None:
        """Arrows are at once where they otherwise are after an animation, and discs change without a transition."""
        lab, journal = next(each for each in examples(self.room) if each[0].stem == "grid")
        page = self.page(lab, journal)
        moved: dict[str, Any] = {}
        for motion in ("no-preference", "reduce"):
            self.prefer_motion(motion)
            self.open(page)
            moved[motion] = self.driver.execute_script(GROWN)
        now, later, changes = moved["no-preference"]
        self.assertNotEqual(now, later)
        self.assertNotEqual(changes, "0s")
        self.assertEqual(moved["reduce"], [later, later, "0s"])


if __name__ == "__main__":
    unittest.main()
