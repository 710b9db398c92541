"""Tests that the lessons (docs/COURSE.md and `course/`) are right. The rules, runs, potentials and audits in the
solutions of the worksheets are compared with those of the plain model. Further tests are about the effect of a fault,
and about the form of the page and of the slides."""
from __future__ import annotations

import random
import re
import unittest
from html.parser import HTMLParser
from pathlib import Path

from model.fault import Fault
from model.journal import audit
from model.lab import read_lab
from model.world import World
from tests.documents.test_potential import link_part, own_part

TOP = Path(__file__).resolve().parents[2]
COURSE = TOP / "course"
RING = [(1, 2), (2, 3), (3, 4), (4, 1)]
PATH = [(1, 2), (2, 3), (3, 4)]
# The headings of a lesson's sections. The minutes and the rubric are tables without such a heading.
PARTS = ["Aim", "Board", "Commands", "Worksheet", "Questions", "Handed in"]


def tables(path: str) -> list[list[list[str]]]:
    """Returns the tables of a page of the course. Each table is a list of rows, and each row a list of cells. The first
    two rows of a table are its head and the line below it."""
    text = (COURSE / path).read_text(encoding="utf-8")
    found = re.findall(r"(?m)((?:^\|.*\n)+)", text)
    return [[[cell.strip() for cell in line.strip("|").split("|")] for line in table.splitlines()] for table in found]


def world(links: list[tuple[int, int]], rows: list[list[str]] | None = None) -> World:
    """Returns a network with these links. `rows` is a table with the registers of the nodes: its first column has the
    words `p` and `m`. Without a table each p is null and each m false."""
    nodes = sorted({end for link in links for end in link})
    near = {node: {a + b - node for a, b in links if node in (a, b)} for node in nodes}  # `a + b - node` is the other end
    values = {row[0]: row[1:] for row in rows or []}
    p = [None if it == "null" else int(it) for it in values.get("p", ["null"] * len(nodes))]
    return World(near, dict(zip(nodes, p)), dict(zip(nodes, [it == "true" for it in values.get("m", [""] * len(nodes))])))


def step(it: World, nodes: list[int] | None = None, partner: int | None = None) -> int:
    """Chooses a move of each of these nodes, or of all privileged ones if none are given, and closes the step. If a
    node can marry several nodes, it marries `partner`, or the last of them if `partner` isn't one of them. Returns the
    number of moves."""
    for node in nodes or [node for node in it.nodes() if it.enabled(node)]:
        moves = it.moves(node)
        it.chosen[node] = next((move for move in moves if move.partner == partner), moves[-1])
    moved = len(it.chosen)
    it.step()
    return moved


def pairs(it: World) -> set[tuple[int, int]]:
    """Returns the pairs of nodes that point at each other, the lower node first."""
    return {(i, p) for i, p in it.p.items() if p is not None and i < p and it.p[p] == i}


class Lessons(unittest.TestCase):
    """The worksheets and their solutions."""

    def test_the_steps_of_worksheet_1_are_those_of_the_model(self) -> None:
        """Plays two steps from the registers on the worksheet. Compares the rules of question 2, the registers of
        question 3, and the pairs of question 4."""
        it = world([*PATH, (4, 5), (5, 1)], tables("worksheets/1.md")[0])
        rules, after = tables("solutions/1.md")
        for row in rules[2:]:
            self.assertEqual(row[1].split(" with ")[0].replace("none", ""), it.enabled(int(row[0])) or "", row)
        self.assertEqual(step(it), 3)
        self.assertEqual((it.p, it.m), (world([*PATH, (4, 5), (5, 1)], after).p, world([*PATH, (4, 5), (5, 1)], after).m))
        step(it)
        self.assertTrue(it.stable())
        self.assertEqual(pairs(it), {(1, 2), (3, 4)})

    def test_the_function_in_solution_2_returns_the_enabled_rules(self) -> None:
        """Compares the function `rule_of` with the model at each node of two hundred random networks."""
        text = re.search(r"```text\n(.*?)```", (COURSE / "solutions/2.md").read_text(encoding="utf-8"), re.DOTALL)
        assert text
        room: dict[str, object] = {}
        exec(text[1], room)  # defines `rule_of` in `room`
        chance = random.Random(2)
        for _ in range(200):
            it = drawn(chance)
            for node in it.nodes():
                near = [Shown(other, it.p[other], it.m[other]) for other in it.near(node)]
                found = room["rule_of"](Shown(node, it.p[node], it.m[node], near))  # type: ignore[operator]
                self.assertEqual(found, it.enabled(node))

    def test_runs_under_different_daemons_have_the_moves_in_solution_4(self) -> None:
        """First all privileged nodes of the path move in each step. Then one node moves in each step, the first
        privileged one of an order. At last all nodes of the ring move, and node 4 marries node 1 or node 3, of which it
        can choose one."""
        it, moves, steps = world(PATH), 0, 0
        while not it.stable():
            moves, steps = moves + step(it), steps + 1
        self.assertEqual((steps, moves, pairs(it)), (6, 10, {(1, 2), (3, 4)}))
        for order, most, married in (([1, 2, 3, 4], 8, {(1, 2), (3, 4)}), ([2, 3, 1, 4], 4, {(2, 3)})):
            it, moves = world(PATH), 0
            while not it.stable():
                moves += step(it, [next(node for node in order if it.enabled(node))])
            self.assertEqual((moves, pairs(it)), (most, married))
        for partner, steps, most in ((1, 6, 10), (3, 7, 12)):
            it, moves, taken = world(RING), 0, 0
            while not it.stable():
                moves, taken = moves + step(it, None, partner), taken + 1
            self.assertEqual((taken, moves), (steps, most))

    def test_the_potentials_before_and_after_a_step_are_those_in_solution_5(self) -> None:
        """The first row of the table is about the registers on the worksheet. The second one is about those after a
        step of four moves."""
        it = world(RING, tables("worksheets/5.md")[0])
        for row, moved in zip(tables("solutions/5.md")[0][2:], (0, 4)):
            self.assertEqual(step(it) if moved else 0, moved)
            parts = [[own_part(it, i)] + [link_part(it, i, j) for j in it.near(i) if j > i] for i in it.nodes()]
            self.assertEqual(row[1:], [" + ".join(map(str, each)) for each in parts] + [str(sum(sum(each) for each in parts))])

    def test_the_audit_finds_the_forgeries_in_solution_8(self) -> None:
        """Makes the five forgeries, a to e, of the journal on the worksheet, and compares the audit's error for each
        with the table. The audit accepts two of them."""
        lines = (TOP / "examples/whole-run.journal").read_text(encoding="ascii").splitlines(keepends=True)
        swapped = ["1 0 grant ben 2 seduction\n", "2 0 grant ana 1 seduction\n"]
        forged = {"a": [*lines[:3], lines[3].replace("marriage 2", "seduction"), *lines[4:]], "b": [lines[0], *lines[2:]],
                  "c": swapped + lines[2:], "d": [lines[0].replace("ana", "ben"), *lines[1:]], "e": lines[:-1]}
        lab = read_lab((TOP / "examples/built-in.toml").read_bytes())
        for letter, found, line in (row for row in tables("solutions/8.md")[0][2:]):
            try:
                audit(lab, "".join(forged[letter]).encode())
                error = ""
            except Fault as fault:
                error = str(fault)
            self.assertEqual((found == "yes", line.strip("`")), (bool(error), error), letter)


class Shown:
    """The reply to a look at a node, or one of the neighbours in it, as the function in solution 2 reads them."""

    def __init__(self, node: int, p: int | None, m: bool, near: list[Shown] | None = None) -> None:
        self.node, self.p, self.m, self.near = node, p, m, near or []


def drawn(chance: random.Random) -> World:
    """Returns a random connected network with random registers."""
    count = chance.randint(2, 9)
    links = {(chance.randint(1, node - 1), node) for node in range(2, count + 1)}
    links |= {(a, b) for a in range(1, count) for b in range(a + 1, count + 1) if chance.random() < 0.25}
    it = world(sorted(links))
    for node in it.nodes():
        it.p[node], it.m[node] = chance.choice([None, *it.near(node)]), chance.random() < 0.5
    return it


class Containment(unittest.TestCase):
    """After one fault in a stable network only the node, its partner and their free neighbours move."""

    def test_no_node_further_away_moves_after_a_fault(self) -> None:
        """Plays random networks until they are stable, causes a fault at a random node, and plays on. If this node
        wasn't married before the fault, no other node may move. In some network a node has to move that is two links
        away from the node with the fault."""
        chance = random.Random(3)
        far = 0
        for _ in range(200):
            it = drawn(chance)
            self.play(it, chance)
            hit = chance.choice(it.nodes())
            partner = it.p[hit]
            near = {hit} if partner is None else {hit, partner}
            may = near | {node for node in it.nodes() if not it.married(node) and it.links[node] & near}
            it.fault(hit, chance.choice([None, *it.near(hit)]), chance.random() < 0.5)
            moved = self.play(it, chance)
            self.assertLessEqual(moved, {hit} if partner is None else may)
            far += bool(moved - near - it.links[hit])
        self.assertGreater(far, 0, "no node moved that is two links away")

    def play(self, it: World, chance: random.Random) -> set[int]:
        """Moves some of the privileged nodes of a world at random, step by step, until it is stable. Returns the nodes
        that moved."""
        moved: set[int] = set()
        while not it.stable():
            may = [node for node in it.nodes() if it.enabled(node)]
            some = [node for node in may if chance.random() < 0.5] or [chance.choice(may)]
            step(it, some)
            moved |= set(some)
        return moved


class Reader(HTMLParser):
    """A parser of the slides, which collects the identifiers of slides and the paths of pictures."""

    def __init__(self) -> None:
        super().__init__()
        self.open: list[str] = []  # the names of the open elements
        self.slides: list[str] = []
        self.pictures: list[str] = []
        self.crossed: list[str] = []  # the names in end tags of elements that weren't opened last

    def handle_starttag(self, tag: str, attrs: list[tuple[str, str | None]]) -> None:
        """Notes a slide or a picture. Opens the element, unless it is one that has no end tag."""
        of = dict(attrs)
        if tag == "img":
            self.pictures.append(of["src"] or "")
        if tag == "section":
            self.slides.append(of["id"] or "")
        if tag not in ("img", "meta"):
            self.open.append(tag)

    def handle_startendtag(self, tag: str, attrs: list[tuple[str, str | None]]) -> None:
        """Ignores an element that is closed at once."""

    def handle_endtag(self, tag: str) -> None:
        """Closes the element that was opened last. If this is another element, adds its end tag to `crossed`."""
        if self.open.pop() != tag:
            self.crossed.append(tag)


class Parts(unittest.TestCase):
    """The sections of each lesson on the course's page."""

    def test_each_lesson_has_its_sections_minutes_and_points(self) -> None:
        """Each of the eight lessons has the sections in PARTS, a table of minutes without a gap from 0 to 45, a rubric
        of ten points, and links to its worksheet and solutions. The exam has twelve questions and sixty points."""
        text = (TOP / "docs/COURSE.md").read_text(encoding="utf-8")
        lessons = re.findall(r"(?ms)^## (\d)\. .*?(?=^## )", text)
        self.assertEqual(lessons, [str(number) for number in range(1, 9)])
        for number, lesson in enumerate(re.split(r"(?m)^## ", text)[1:9], start=1):
            with self.subTest(lesson=number):
                self.assertEqual(re.findall(r"(?m)^\*\*([A-Z][a-z ]*)\.\*\*", lesson), PARTS)
                times = [(int(begin), int(end)) for begin, end in re.findall(r"(?m)^\| (\d+)–(\d+) \|", lesson)]
                self.assertEqual([0, *(end for _, end in times)], [*(begin for begin, _ in times), 45])
                rubric = lesson.partition("| Points | Rubric |")[2]
                self.assertEqual(sum(int(points) for points in re.findall(r"(?m)^\| (\d+) \|", rubric)), 10)
                for folder in ("worksheets", "solutions"):
                    self.assertIn(f"(../course/{folder}/{number}.md)", lesson)
        points = re.findall(r"(?m)^\d+\. \((\d+)\)", (COURSE / "exam.md").read_text(encoding="utf-8"))
        self.assertEqual((len(points), sum(map(int, points))), (12, 60))


class Slides(unittest.TestCase):
    """The file of the slides, `course/slides.html`."""

    def test_slides_are_numbered_and_have_their_pictures(self) -> None:
        """Also checks that each element is closed, and that the course's page names the last slide, and none after
        it."""
        it = Reader()
        it.feed((COURSE / "slides.html").read_text(encoding="utf-8"))
        self.assertEqual((it.open, it.crossed), ([], []))
        self.assertEqual(it.slides, [f"s{number}" for number in range(1, len(it.slides) + 1)])
        self.assertEqual([picture for picture in it.pictures if not (COURSE / picture).exists()], [])
        named = re.findall(r"slides? (\d+)(?: (?:to|and) (\d+))?", (TOP / "docs/COURSE.md").read_text(encoding="utf-8"))
        self.assertEqual(max(int(number) for pair in named for number in pair if number), len(it.slides))


if __name__ == "__main__":
    unittest.main()
