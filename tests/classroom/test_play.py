"""The page of a run that `./class play` makes, in a real browser, and the pictures that `play --svg` draws.

A *place* is the number of an event. The page and a picture show the state after it, and place 0 is the beginning. The
*number* of a configuration stays the same while moves are granted, so several places can have the same number.
"""
from __future__ import annotations

import re
import unittest
import xml.etree.ElementTree as ElementTree
from datetime import datetime
from pathlib import Path
from typing import Any

from selenium.webdriver.common.keys import Keys

from classroom.pages.frames import State, frames_of
from classroom.pages.play import picture
from tests.classroom.browser import Played, expected, shown, until
from tests.classroom.runs import BUILT_IN, EXAMPLES, TOP, edited_run, examples, journal_of


# What the header says: the state, pairs, the step's number, and the moves since the last fault, link or cut.
NAMES = ("told", "pairs", "number", "since")
HEADER = "return arguments[0].map((name) => document.getElementById(name).textContent)"


def header(state: State) -> list[str]:
    """Returns the expected header of the page for a state, by the program's report."""
    can, pairs = len(state.privileged), len(state.pairs)
    told_state = "At rest" if state.stable else f"{can} node{'' if can == 1 else 's'} can move"
    return [told_state, f"{pairs} pair{'' if pairs == 1 else 's'}", str(state.number), str(state.since)]


class Play(Played):
    """Runs that are short enough to be checked step by step."""

    def test_the_keys_go_to_each_place_and_each_step(self) -> None:
        """The right and left arrows go to the next and the previous place, and the down and up arrows to the first
        place of the next and the previous number. Home and End go to the first and the last place."""
        for lab, journal in (edited_run(self.room), *examples(self.room)):
            _, frames = frames_of(lab, journal)
            both = [(expected(frame.state, frame), header(frame.state)) for frame in frames]
            run = [each for each, _ in both]
            self.open(self.page(lab, journal))
            with self.subTest(lab=lab.name):
                for place in range(len(run)):
                    self.assertEqual(shown(self.driver), run[place])
                    self.assertEqual(self.driver.execute_script(HEADER, NAMES), both[place][1])
                    self.press(Keys.ARROW_RIGHT)
                self.press(Keys.HOME)
                self.assertEqual(shown(self.driver), run[0])
                numbers = [root["number"] for root, _, _ in run]
                firsts = [at for at, number in enumerate(numbers) if at == 0 or number != numbers[at - 1]]
                for at in firsts[1:]:
                    self.press(Keys.ARROW_DOWN)
                    self.assertEqual(shown(self.driver), run[at])
                self.press(Keys.ARROW_UP)
                self.assertEqual(shown(self.driver), run[firsts[-2]])
                self.press(Keys.END)
                self.press(Keys.ARROW_LEFT)
                self.assertEqual(shown(self.driver), run[-2])
                self.press(Keys.HOME)
                self.assertEqual(shown(self.driver), run[0])

    def test_the_address_names_the_place_or_step_that_is_shown(self) -> None:
        """The fragment `#p=N` shows place N, or the last place if there are fewer. `#step=N` shows number N. After a
        key the address names the new place, and the page has a link to the step that is shown."""
        lab, journal = edited_run(self.room)
        page = self.page(lab, journal)
        self.open(page, "#p=7")
        self.assertEqual(shown(self.driver)[0]["place"], "7")
        self.driver.execute_script("location.hash = '#p=2'")
        self.driver.execute_script("window.dispatchEvent(new HashChangeEvent('hashchange'))")
        self.assertEqual(shown(self.driver)[0]["place"], "2")
        self.open(page, "#p=99999")
        self.assertEqual(shown(self.driver)[0]["place"], str(len(journal.read_text().splitlines())))
        self.press(Keys.HOME)
        self.press(Keys.ARROW_RIGHT)
        until(self.driver, lambda driver: driver.execute_script("return location.hash") == "#p=1")
        self.driver.find_element("css selector", "#events li:nth-child(4) a").click()
        self.assertEqual(shown(self.driver)[0]["place"], "3")
        self.driver.execute_script("location.hash = '#step=3'")
        until(self.driver, lambda driver: shown(driver)[0]["number"] == "3")
        self.assertEqual(self.driver.find_element("id", "moment").get_attribute("href").rpartition("#")[2], "step=3")

    def test_after_the_space_key_it_plays_to_the_end_by_itself(self) -> None:
        lab, journal = edited_run(self.room)
        self.open(self.page(lab, journal))
        self.driver.execute_script("document.getElementById('speed').value = '20'")  # fast, so that the test is short
        self.press(" ")
        last = str(len(journal.read_text().splitlines()))
        until(self.driver, lambda driver: shown(driver)[0]["place"] == last)
        until(self.driver, lambda driver: driver.find_element("id", "play").text == "▶ Play")

    def test_html_in_the_names_of_files_is_shown_as_text(self) -> None:
        odd = "<img src=x onerror=window.broken=1>'\"&\n{{DATA}}<b>"
        lab, journal = (file.rename(file.with_stem(odd)) for file in edited_run(self.room))
        self.open(self.page(lab, journal))
        self.assertIsNone(self.driver.execute_script("return window.broken || null"))
        self.assertEqual(self.driver.find_elements("css selector", "h1 :not(small, #connection), title *"), [])
        day = f"{datetime.fromtimestamp(journal.stat().st_mtime):%Y-%m-%d}"
        self.assertEqual(self.driver.title, " ".join(f"{lab.stem}, {day}".split()))

    def test_a_page_loads_nothing_and_has_no_key(self) -> None:
        """The page refers to no other file, so it also works offline. The names of SVG's namespace and of its own arrow
        load nothing, so they are left out."""
        text = self.page(BUILT_IN, TOP / "examples" / "whole-run.journal").read_text()
        for word in ("http://", "https://", "src=", "@import", "url("):
            found = text.replace('xmlns="http://www.w3.org/2000/svg"', "").replace('"http://www.w3.org/2000/svg"', "")
            self.assertNotIn(word, found.replace("url(#arrow)", ""))
        for key in ("a-key", "b-key", "c-key", "chalk"):
            self.assertNotIn(key, text)

    def test_a_picture_of_a_place_has_its_registers_and_rules(self) -> None:
        """A place that the run doesn't have is refused."""
        lab, journal = edited_run(self.room)
        _, frames = frames_of(lab, journal)
        for place, frame in enumerate(frames):
            output = self.room / f"{place}.svg"
            done = self.call("play", lab, journal, "--svg", str(place), "-o", output)
            self.assertEqual((done.returncode, done.stderr), (0, ""))
            self.assertEqual(attributes(output), expected(frame.state, frame)[:2])
        self.assertEqual(self.call("play", lab, journal, "--svg", "99", "-o", output).returncode, 3)

    def test_a_picture_of_several_places_has_a_drawing_of_each(self) -> None:
        """The drawings don't cover each other, and share one arrowhead, the only element with an identifier. Places
        that don't exist or aren't numbers are refused, and no file is written."""
        lab, journal = edited_run(self.room)
        frames = [expected(frame.state, frame)[:2] for frame in frames_of(lab, journal)[1]]
        for places in ([0, 3], [9, 0, 5, 5, 12]):
            output = self.room / "several.svg"
            done = self.call("play", lab, journal, "--svg", ",".join(map(str, places)), "-o", output)
            self.assertEqual((done.returncode, done.stderr), (0, ""))
            text = output.read_text()
            cells = [cell for cell in ElementTree.fromstring(text) if cell.tag.endswith("svg")]
            self.assertEqual([attributes_of(cell) for cell in cells], [frames[place] for place in places])
            corners = {(cell.get("x"), cell.get("y")) for cell in cells}
            self.assertEqual((len(corners), text.count('id="arrow"'), text.count('id="')), (len(places), 1, 1))
        for word, status in (("0,99", 3), ("0,-1", 1), ("1,", 1), ("x", 1)):
            done = self.call("play", lab, journal, "--svg", word, "-o", self.room / "none.svg")
            self.assertEqual((done.returncode, (self.room / "none.svg").exists()), (status, False), word)

    def test_the_pictures_of_the_documents_are_what_is_drawn_now(self) -> None:
        for name, theme in (("cycle", "light"), ("cycle", "dark"), ("crowd", "light")):
            kept, output = TOP / "docs" / f"{name}{'-dark' * (theme == 'dark')}.svg", self.room / f"{name}.svg"
            lab = EXAMPLES / f"{name}.toml"
            journal = journal_of(lab, EXAMPLES / f"{name}-run.script", self.room / "journal")
            places = [int(place) for place in re.findall(r'data-place="(\d+)"', kept.read_text())]
            output.write_text(picture(lab, journal, places, theme))
            self.assertEqual(output.read_text(), kept.read_text())

    def test_wrong_arguments_and_files_have_their_exit_statuses(self) -> None:
        lab, journal = edited_run(self.room)
        self.assertEqual(self.call("play").returncode, 1)
        self.assertEqual(self.call("play", self.room / "none", journal).returncode, 4)
        self.assertEqual(self.call("play", lab, journal, "-o", self.room / "none" / "run.html").returncode, 4)


def attributes(picture: Path) -> tuple[dict[str, str], list[dict[str, str]]]:
    """Returns the data attributes of the drawing in an SVG file, and those of each node in it."""
    return attributes_of(ElementTree.parse(picture).getroot())


def attributes_of(root: ElementTree.Element) -> tuple[dict[str, str], list[dict[str, str]]]:
    """Returns the data attributes of a drawing's element, and those of each node in it."""
    groups: list[Any] = [group for group in root.iter() if (group.get("class") or "").split(" ")[0] == "node"]
    nodes = [{name.removeprefix("data-"): value for name, value in group.items() if name.startswith("data-")} for group in groups]
    data = {name.removeprefix("data-"): value for name, value in root.items() if name.startswith("data-")}
    return data, sorted(nodes, key=lambda node: int(node["node"]))


if __name__ == "__main__":
    unittest.main()
