"""The page of the largest run opens and steps in time, as measured by the browser. The page of a long run isn't
large. A page *steps* when it shows the state after another event. A *place* is the number of an event."""
from __future__ import annotations

import unittest
from pathlib import Path

from classroom.core.journal import events, in_words
from tests.classroom.browser import Played, is_ready, shown, until
from tests.classroom.runs import largest_run, long_run

# The most milliseconds in which the page opens and steps, on a machine where LOAD takes LOADED milliseconds if nothing
# else runs. On a slower machine, the limits are multiplied by the factor by which LOAD takes longer. On a machine of this
# speed the page opens in 400 milliseconds and steps in 56, so it meets the limits even if other programs run too.
OPENS, STEPS, LOADED = 2000, 250, 170
LOAD = """
for (let round = 0; round < 10; round += 1) {
  JSON.parse(JSON.stringify(Array.from({length: 30000}, (_, at) => ({at, text: String(at)}))));
}
"""
# Shows the state at a place, and returns after it is painted.
STEP = """
const [place, done] = arguments;
player.goTo(place);
const painted = new MessageChannel();
painted.port1.onmessage = () => done(null);
requestAnimationFrame(() => painted.port2.postMessage(null));
"""
# How many changes of the drawing each step makes.
TOUCHED = """
const counts = [], observer = new MutationObserver(() => {});
observer.observe(document.querySelector('.stage'), {attributes: true, characterData: true, childList: true, subtree: true});
player.goTo(0);
for (let at = 1; at <= 1000; at += 1) {
  observer.takeRecords();
  player.goTo(at);
  counts.push(observer.takeRecords().length);
}
return counts;
"""


class Large(Played):
    """256 nodes in a complete graph, and 1,000 events."""

    def setUp(self) -> None:
        """Lets the browser measure processor time, so that other programs don't change the result much."""
        super().setUp()
        self.driver.execute_cdp_cmd("Performance.enable", {"timeDomain": "threadTicks"})
        self.addCleanup(self.driver.execute_cdp_cmd, "Performance.disable", {})
        self.driver.set_script_timeout(300)

    def spent(self) -> float:
        """Returns the processor time that the page's tasks have used so far, in milliseconds."""
        metrics = self.driver.execute_cdp_cmd("Performance.getMetrics", {})["metrics"]
        return 1000 * next(float(metric["value"]) for metric in metrics if metric["name"] == "TaskDuration")

    def slowness(self) -> float:
        """Returns how many times slower this machine is at the moment than the machine for which the limits are meant,
        or 1 if it is faster."""
        start = self.spent()
        self.driver.execute_script(LOAD)
        return max(1.0, (self.spent() - start) / LOADED)

    def step(self, place: int) -> float:
        """Steps to a place. Returns the processor time that this takes, in milliseconds."""
        start = self.spent()
        self.driver.execute_async_script(STEP, place)
        return self.spent() - start

    def measure_opening(self, page: Path) -> float:
        """Opens a page, and shows its first state. Returns the processor time that this takes in milliseconds, divided
        by the slowness of this machine. The slowness is measured before, in a blank page. That time doesn't count,
        since the browser counts the time of each page from 0."""
        self.driver.get("about:blank")
        slowness = self.slowness()
        self.driver.get(page.as_uri())
        until(self.driver, is_ready)
        self.step(0)
        return self.spent() / slowness

    def measure_steps(self, places: list[int]) -> list[float]:
        """Steps to each of these places, beginning at the place before the first of them. Returns the processor time
        that each step takes in milliseconds, divided by the slowness of this machine."""
        slowness = self.slowness()
        self.step(places[0] - 1)
        return [self.step(place) / slowness for place in places]

    def test_the_page_of_the_largest_lab_opens_and_steps_in_time(self) -> None:
        """Each measurement is made three times, and the shortest time counts. Steps are measured at each event that
        makes a configuration, and at forty events in a row. A step between two grants or releases changes little of the
        drawing."""
        lab, journal = largest_run(self.room)
        kinds = [line.split(" ")[2] for line in journal.read_text().splitlines()]
        self.assertEqual(len(kinds), 1000)
        page = self.page(lab, journal)
        self.assertLess(min(self.measure_opening(page) for _ in range(3)), OPENS)
        made = [place for place, kind in enumerate(kinds, 1) if kind in ("close", "fault")]
        for places in (made, list(range(901, 941))):
            passes = [self.measure_steps(places) for _ in range(3)]
            self.assertLess(max(min(of) for of in zip(*passes)), STEPS)
        touched: list[int] = self.driver.execute_script(TOUCHED)
        self.assertEqual(shown(self.driver)[0]["place"], "1000")
        for place in range(2, 1001):
            if kinds[place - 1] in ("grant", "release") and kinds[place - 2] in ("grant", "release"):
                self.assertLess(touched[place - 1], 10, place)


class Long(Played):
    """A run of 20,000 events."""

    def test_its_page_has_less_than_a_megabyte_more_than_its_journal(self) -> None:
        """The page also opens at the last event."""
        lab, journal = long_run(self.room, 20_000)
        page = self.page(lab, journal)
        size, most = page.stat().st_size, journal.stat().st_size + 1_000_000
        self.assertLess(size, most)
        self.open(page, "#p=20000")
        self.assertEqual(shown(self.driver)[0]["place"], "20000")
        last = events(journal.read_text())[-1]
        self.assertEqual(self.driver.find_element("id", "event").text, f"event {last.place}: {in_words(last)}")


if __name__ == "__main__":
    unittest.main()
