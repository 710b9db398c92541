"""The contents of pages and their positions: all texts match the program's replies, on a phone and on a projector, and
nothing overlaps. A *place* is the number of an event. An *open link* joins two nodes without a pair, and its *witness*
is a node with an enabled rule (docs/PROTOCOL.md)."""
from __future__ import annotations

import unittest
from itertools import combinations
from pathlib import Path
from typing import Any

from selenium.webdriver.common.keys import Keys

from classroom.client import Client, Denied
from classroom.core.journal import Event, in_words
from classroom.core.lab import read
from tests.classroom.browser import Played, browser, is_ready, pale, press, show_as, until
from tests.classroom.help import CYCLE, Going, InRoom, a_port, call_class
from tests.classroom.runs import EXAMPLES, journal_of

PHONE, LAPTOP, WIDER, PROJECTOR = WINDOWS = (390, 844), (1280, 720), (1366, 768), (1920, 1080)
SMALLEST, SMALLEST_ON_PHONE = 12, 11  # pixels of a text
# The elements of the page whose texts are compared, by their identifiers. The first says how many nodes can move.
TEXTS = ("told", "pairs", "number", "since", "bound", "event")
# Returns each visible text with the height of its letters in pixels.
LETTERS = """
const isSeen = (it) => it.getClientRects().length > 0 && getComputedStyle(it).visibility === 'visible' && !it.closest('.unseen, title, script, style');
const own = (it) => [...it.childNodes].some((node) => node.nodeType === 3 && node.data.trim());
return [...document.querySelectorAll('body *')].filter((it) => own(it) && isSeen(it)).map((it) => {
  const svg = it.closest('svg'), scale = svg ? svg.getScreenCTM().a : 1;
  return [parseFloat(getComputedStyle(it).fontSize) * scale, it.textContent.trim().slice(0, 30)];
});
"""
# Returns the top and bottom of the current event's row, those of the list of events, and the window's height.
CURRENT = """
const list = document.getElementById('events').getBoundingClientRect(), row = document.querySelector('#events [aria-current]').getBoundingClientRect();
return [row.top, row.bottom, list.top, list.bottom, innerHeight];
"""
NAMES = ("Zoë Müller", "Jonas Ek", "Ana Lima", "Gus Roy", "Ida Berg", "Tim Ode", "Eva Sol", "Bo Dahl", "Kim Vo", "Pia Rot", "Leo Wolf",
         "Uma Das", "Kai Ness", "Nora Lind")
# Returns each node with its description for people who don't see the drawing.
NODES = """
return [...document.querySelectorAll('#drawing .node')].map((it) => [Number(it.dataset.node), it.getAttribute('aria-label')]);
"""
# Returns the texts at the witnesses of the open links, each with the witness and its rule, sorted.
WITNESSES = "return [...document.querySelectorAll('.witnesses text')].map((it) => it.textContent).sort()"
# Returns the nodes for whose moves the class waits, as the page lists them. The page makes the rows of this list anew
# at each report, so one script reads all of them.
WAITS = "return [...document.querySelectorAll('#waits li')].map((it) => it.innerText.split(/\\s/)[0])"
# Returns for each path of open links how many lines it draws, since a path can have several.
DRAWN_OPEN = "return [...document.querySelectorAll('g.open path')].map((it) => (it.getAttribute('d').match(/M/g) || []).length)"
# Shows the state that needs most room in the picture: each node has the longest rule, and it is chosen.
FULLEST = """
const { drawing, run } = player, longest = drawing.data.rules.reduce((best, rule, at, all) => (rule.length > all[best].length ? at : best), 0);
const state = run.state.copy();
state.rule.fill(longest);
state.chosen.fill(longest);
drawing.show(state, run.frames[player.at]);
"""
# Returns the discs, names and rules in the picture: of each its node, `node` or its text, and its box.
BOXES = """
const box = (it) => { const {left, top, right, bottom} = it.getBoundingClientRect(); return [left, top, right, bottom]; };
const found = [];
for (const node of document.querySelectorAll('#drawing .node')) {
  found.push([Number(node.dataset.node), 'node', box(node.querySelector('.disc'))]);
  for (const part of node.querySelectorAll('.owner, .pill')) {
    if (part.textContent && part.getClientRects().length) found.push([Number(node.dataset.node), part.textContent, box(part)]);
  }
}
return found;
"""
# Returns whether the picture is the one for a window of that width.
FOR_WINDOW = """
const {drawing, data} = window.player || window.live;
return drawing.view === data.views[innerWidth < 500 ? 1 : 0];
"""
# Returns the width and height of the page, the boxes of its parts, how many pixels of the legend are cut off, and the
# pixels for each unit of the picture.
SIZES = """
const box = (it) => { const {left, top, right, bottom} = it.getBoundingClientRect(); return [left, top, right, bottom]; };
const root = document.documentElement, legend = document.querySelector('.legend'), drawing = document.getElementById('drawing');
return {
  wide: root.scrollWidth, high: root.scrollHeight, legend: box(legend), hidden: legend.scrollHeight - legend.clientHeight,
  controls: box(document.querySelector('.bar')), picture: box(drawing), chart: box(document.querySelector('.chart')), scale: drawing.getScreenCTM().a,
};
"""


def resize(driver: Any, size: tuple[int, int] | None) -> None:
    """Sets the size of the browser's window, or restores it if `size` is None."""
    if size is None:
        driver.execute_cdp_cmd("Emulation.clearDeviceMetricsOverride", {})
    else:
        metrics = {"width": size[0], "height": size[1], "deviceScaleFactor": 1, "mobile": False}
        driver.execute_cdp_cmd("Emulation.setDeviceMetricsOverride", metrics)


def counted(count: int, word: str) -> str:
    """Returns a count with its noun, which is in the plural unless the count is 1."""
    return f"{count} {word}{'' if count == 1 else 's'}"


def meet(a: list[float], b: list[float]) -> bool:
    """Returns whether two boxes overlap by more than a pixel in both directions."""
    return min(a[2], b[2]) - max(a[0], b[0]) > 1 and min(a[3], b[3]) - max(a[1], b[1]) > 1


def check_readable(test: unittest.TestCase, driver: Any, size: tuple[int, int], count: int = 25) -> None:
    """Checks that a window of this size shows more than `count` texts, that none is too small or too faint, and
    that the page isn't wider than the window."""
    least = SMALLEST_ON_PHONE if size == PHONE else SMALLEST
    texts = driver.execute_script(LETTERS)
    test.assertGreater(len(texts), count)
    test.assertEqual([text for text in texts if text[0] < least - 0.01], [])
    test.assertEqual(pale(driver)[1], [])
    test.assertLessEqual(driver.execute_script("return document.documentElement.scrollWidth"), size[0])


class Watched(InRoom):
    """The page for the projector, while a run of the cycle of `examples/` goes on."""

    def setUp(self) -> None:
        """Starts the run, opens its page, and connects the teacher and all students."""
        super().setUp()
        self.driver: Any = browser()
        self.addCleanup(resize, self.driver, None)
        self.lab = read(CYCLE)
        self.going = Going(self, CYCLE, "--close", "by-hand", "--page", str(a_port()))
        self.driver.get(self.going.until("^page for the projector http").removeprefix("page for the projector "))
        until(self.driver, is_ready)
        self.teacher = self.client(*self.lab.teacher)
        self.students = {name: self.client(name, key) for name, key in self.lab.students.items()}

    def client(self, name: str, key: str) -> Client:
        """Connects a student or teacher. Returns the connection, which is closed at the end of the test."""
        client = Client(self.going.port, name, key)
        self.addCleanup(client.hang_up)
        return client

    def journal(self) -> list[list[str]]:
        """Returns the words of the journal's lines."""
        return [line.split(" ") for line in (self.going.folder / "journal").read_text(encoding="ascii").splitlines()]

    def wanted(self) -> dict[str, str]:
        """Returns the expected texts of the page by the identifiers of their elements, computed from the program's
        report and the journal."""
        report, lines = self.teacher.report(), self.journal()
        moves = since = chosen = 0
        links = len(self.lab.links)
        for line in lines:
            chosen += {"grant": 1, "release": -1}.get(line[2], 0)
            links += {"link": 1, "cut": -1}.get(line[2], 0)
            if line[2] == "close":
                moves, since, chosen = moves + chosen, since + chosen, 0
            elif line[2] in ("fault", "link", "cut"):
                since = chosen = 0
        nodes = len(self.lab.nodes)
        bound = 3 * nodes + 2 * min(links, nodes * nodes // 4)
        return {
            "told": "At rest" if report.stable else counted(len(report.privileged), "node") + " can move", "pairs": counted(len(report.pairs), "pair"),
            "number": str(report.at), "since": str(since), "bound": str(bound),
            "event": f"event {lines[-1][0]}: {in_words(Event(0, 0, tuple(lines[-1][2:])))}" if lines else "the beginning of the run",
            "counts": f"after event {len(lines)}: {counted(moves, 'move')} in the whole run, {counted(len(report.open), 'link')} between free nodes now",
        }

    def descriptions(self) -> dict[int, str]:
        """Returns the expected description of each node, by its identifier, from looks at it."""
        report = self.teacher.report()
        partners = {a: b for pair in report.pairs for a, b in (pair, pair[::-1])}
        found = {}
        for node in self.lab.nodes:
            look = self.teacher.look(node.id)
            words = [f"node {node.id} of {' and '.join(node.owners)}", f"p {'null' if look.p is None else look.p}", f"m {str(look.m).lower()}"]
            words += [f"married to {partners[node.id]}"] if node.id in partners else []
            words += [f"privileged: {look.rule}"] if look.rule else []
            words += [f"chosen: {look.chosen}"] if look.chosen else []
            found[node.id] = ", ".join(words)
        return found

    def compare(self) -> None:
        """Waits until the page shows the last event, and compares its whole contents with the expected ones."""
        wanted = self.wanted()
        until(self.driver, lambda driver: driver.find_element("id", "event").text == wanted["event"])
        seen = {name: self.driver.find_element("id", name).text for name in TEXTS}
        self.assertEqual(seen | {"counts": self.driver.find_element("id", "counts").get_attribute("title")}, wanted)
        self.assertEqual(self.driver.find_element("id", "closes").text, "steps are closed by hand")
        self.assertEqual(dict(self.driver.execute_script(NODES)), self.descriptions())
        report = self.teacher.report()
        # In the picture for a phone a rule is only its first letter.
        short = self.driver.execute_script("return !live.drawing.view.words")
        self.assertEqual(self.driver.execute_script(WITNESSES),
                         sorted(f"{witness}: {rule[:1].upper() if short else rule}" for _, _, witness, rule in report.open))
        waited = [str(node) for node, _ in report.privileged if self.teacher.look(node).chosen is None]
        self.assertEqual(self.driver.execute_script(WAITS), waited)
        self.assertEqual(sum(self.driver.execute_script(DRAWN_OPEN)), len(report.open))

    def ask_all(self) -> None:
        """Asks for the enabled move of each node, by its first owner."""
        for node in self.lab.nodes:
            student = self.students[node.owners[0]]
            look = student.look(node.id)
            if look.rule:
                try:
                    student.move(look)
                except Denied:  # The move is chosen already.
                    pass

    def test_each_text_of_the_page_matches_the_program_s_replies(self) -> None:
        """This is checked after moves and after each step until the network is stable, in a small and a large window in
        turn, and then after faults and changes of links."""
        self.compare()
        for turn in range(40):  # More steps than moves are possible, of which there are at most 35.
            resize(self.driver, (PHONE, PROJECTOR)[turn % 2])
            self.ask_all()
            self.compare()
            self.going.type("close")
            self.going.until("^configuration ")
            self.compare()
            if self.teacher.report().stable:
                break
        self.assertEqual(self.driver.find_element("id", "told").text, "At rest")
        for line in ("fault 1 2 true", "link 1 3", "cut 4 5", "fault 6 null false"):
            self.going.type(line)
            self.going.until("^configuration ")
            self.compare()
        self.assertEqual(self.going.end(), 0, self.going.lines)

    def test_a_screen_reader_finds_each_node(self) -> None:
        """In the accessibility tree of the browser each node has its description. On the page on which the teacher acts
        it is that of a button. No element is inside an image, since a screen reader would skip it there."""
        self.assertEqual(self.driver.find_elements("css selector", "[role=img] [role=button], [role=img] button, [role=img] [role=img]"), [])
        self.assertEqual(self.driver.find_element("id", "drawing").get_attribute("role"), "group")
        tree = self.driver.execute_cdp_cmd("Accessibility.getFullAXTree", {})["nodes"]
        names = {it.get("name", {}).get("value", "") for it in tree if not it.get("ignored")}
        self.assertLessEqual(set(self.descriptions().values()), names)
        act = self.going.until("^page on which you can act http").removeprefix("page on which you can act ")
        self.driver.get(act)
        until(self.driver, is_ready)
        tree = self.driver.execute_cdp_cmd("Accessibility.getFullAXTree", {})["nodes"]
        buttons = {it["name"]["value"] for it in tree if it.get("role", {}).get("value") == "button" and not it.get("ignored")}
        self.assertLessEqual(set(self.descriptions().values()), buttons)


class Sizes(Played):
    """Pages of networks of 14 nodes, and of the grid of `examples/`, in windows of several sizes."""

    def setUp(self) -> None:
        """Opens the browser. Restores its usual size after the test, since other tests use it too."""
        super().setUp()
        self.addCleanup(resize, self.driver, None)

    def lab(self, seed: int, *family: str) -> Path:
        """Writes a lab of 14 students with a random start, and returns its path. `family` are the arguments for its
        network."""
        lab, students = self.room / f"{seed}.toml", self.room / "names.txt"
        students.write_text("\n".join(NAMES) + "\n", encoding="utf-8")
        done = call_class("new", lab, "--students", students, "--start", "random", "--seed", str(seed), *family)
        self.assertEqual(done.returncode, 0, done.stderr)
        return lab

    def test_discs_names_and_rules_of_different_nodes_do_not_overlap(self) -> None:
        """Each node has a disc, a name and a rule, but no name in the window of a phone."""
        journal = self.room / "none.journal"
        journal.write_text("")
        families = [("--family", "random:14:22"), ("--family", "cycle"), ("--family", "grid:7x2"), ("--family", "tree"), ("--family", "star")]
        for seed, family in enumerate(families, 1):
            self.open(self.page(self.lab(seed, *family), journal))
            for size in (LAPTOP, PHONE):
                with self.subTest(seed=seed, family=family, size=size):
                    resize(self.driver, size)
                    until(self.driver, lambda driver: driver.execute_script(FOR_WINDOW))
                    self.driver.execute_script(FULLEST)
                    found = self.driver.execute_script(BOXES)
                    self.assertEqual(len(found), 14 * (3 if size == LAPTOP else 2))
                    upon = [(a[:2], b[:2]) for a, b in combinations(found, 2) if a[0] != b[0] and meet(a[2], b[2])]
                    self.assertEqual(upon, [])

    def test_every_text_can_be_read_and_the_current_event_is_in_view(self) -> None:
        """In four windows and both themes no text is small or faint, and nothing has to be scrolled to the side. The
        run has more events than the list shows, so the list is scrolled to the current one."""
        lab = EXAMPLES / "grid.toml"
        journal = journal_of(lab, EXAMPLES / "grid-run.script", self.room / "grid.journal")
        self.addCleanup(show_as, self.driver)
        self.open(self.page(lab, journal))
        last = len(journal.read_text().splitlines())
        for size in WINDOWS:
            resize(self.driver, size)
            for theme in ("light", "dark"):
                show_as(self.driver, theme)
                for place in (0, last // 2, last):
                    self.driver.execute_script("player.goTo(arguments[0])", place)
                    with self.subTest(size=size, theme=theme, place=place):
                        check_readable(self, self.driver, size)
                        top, bottom, above, below, high = self.driver.execute_script(CURRENT)
                        self.assertTrue(0 <= above <= top + 1 < bottom <= below + 1 and below <= high)

    def test_the_pages_of_a_run_fit_into_each_window(self) -> None:
        """These are the page for the projector, the one on which the teacher acts, and that of the ended run. The first
        has no controls."""
        lab = self.lab(1, "--family", "random:14:22")
        port = a_port()
        test = InRoom()  # `Going` needs a test of this class, for its folder and for what is done at the end.
        test.room = self.room
        going = Going(test, lab, "--close", "by-hand", "--page", str(port))
        self.addCleanup(test.doCleanups)
        looks, acts = (going.until(f"^{word} http").removeprefix(f"{word} ") for word in ("page for the projector", "page on which you can act"))
        for number in range(1, 9):
            going.type(f"fault {number} null true")
            going.until(f"^configuration {number}: ")
        for address in (looks, acts):
            self.driver.get(address)
            until(self.driver, is_ready)
            self.check_fits(address == acts)
            self.check_full_screen()
        self.assertEqual(going.end(), 0, going.lines)
        self.open(going.folder / "run.html")
        self.check_fits(True)
        self.check_full_screen()

    def check_fits(self, has_controls: bool) -> None:
        """Checks that the open page fits into each window without being scrolled, and that its picture is large enough
        on a phone and on a projector. Its texts can be read in both themes. The bar is higher if it has controls."""
        found = self.measure(PHONE)
        self.assertLessEqual((found["wide"], found["high"]), PHONE)
        self.assertGreater(found["scale"], 0.8)
        for size in (LAPTOP, WIDER, PROJECTOR):
            found = self.measure(size)
            self.assertLessEqual((found["wide"], found["high"]), size)
            for name in ("legend", "picture", "controls", "chart"):
                left, top, right, bottom = found[name]
                self.assertTrue(0 <= left < right <= size[0] and 0 <= top < bottom <= size[1], (size, name, found))
            self.assertLessEqual(found["hidden"], 1, (size, found))
        # `found` has the sizes in the last window, that of a projector.
        self.assertGreaterEqual(found["scale"], 1.3)
        self.assertLess(found["controls"][3] - found["controls"][1], 130 if has_controls else 70)
        for size in WINDOWS:
            self.measure(size)
            for theme in ("light", "dark"):
                show_as(self.driver, theme)
                with self.subTest(size=size, theme=theme):
                    check_readable(self, self.driver, size)
        show_as(self.driver)

    def measure(self, size: tuple[int, int]) -> dict[str, Any]:
        """Sets the window's size, and waits until the picture for it has appeared. Returns the values of SIZES."""
        resize(self.driver, size)
        until(self.driver, lambda driver: driver.execute_script(FOR_WINDOW))
        found: dict[str, Any] = self.driver.execute_script(SIZES)
        return found

    def check_full_screen(self) -> None:
        """Checks that the key f shows the page on the full screen with a picture that isn't smaller, and that pressing
        it again ends this. At the end presses Escape, so that no node is selected afterwards."""
        before = self.driver.execute_script(SIZES)["scale"]
        press(self.driver, "f")
        until(self.driver, lambda driver: driver.execute_script("return document.fullscreenElement !== null"))
        self.assertTrue(self.driver.find_element("id", "told").is_displayed())
        self.assertGreaterEqual(self.driver.execute_script(SIZES)["scale"], before)
        press(self.driver, "f")
        until(self.driver, lambda driver: driver.execute_script("return document.fullscreenElement === null"))
        press(self.driver, Keys.ESCAPE)


if __name__ == "__main__":
    unittest.main()
