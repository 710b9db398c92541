"""The potentials that docs/SELF-STABILISATION.md counts by hand are those of the registers that the program shows."""
from __future__ import annotations

import json
import re
import unittest
from pathlib import Path

from model.lab import read_lab
from model.world import World

TOP = Path(__file__).resolve().parents[2]
PAGE = (TOP / "docs/SELF-STABILISATION.md").read_text(encoding="utf-8")
# The lab of the page's example, and the output of its script, which tests/program compares with the program's.
LAB, SHOWN = TOP / "examples/five.toml", TOP / "examples/five-run.out"
HIGHEST = 5  # the highest node of this lab


def rows(first: str) -> list[list[str]]:
    """Returns the rows of the page's table whose first column has the head `first`, each as a list of cells."""
    table = re.search(rf"(?m)^\| {re.escape(first)} \|.*\n\|[-| ]+\|\n((?:\|.*\n)+)", PAGE)
    assert table, first
    return [[cell.strip() for cell in line.strip("|").split("|")] for line in table[1].splitlines()]


def own_part(world: World, i: int) -> int:
    """Returns the own part of node i in the potential (docs/SELF-STABILISATION.md), by the page's first table."""
    # The rows are for a married node, an unmarried one, and an unmarried one that points at a lower node.
    married, unmarried, down = (row[1:] for row in rows("Own part of i"))
    column = 0 if world.m[i] else 1  # the table has a column for m true, and one for m false
    pointer = world.p[i]
    if world.married(i):
        return int(married[column])
    return int((down if pointer is not None and pointer < i else unmarried)[column])


def link_part(world: World, i: int, j: int) -> int:
    """Returns the part that node i has in the potential for its higher neighbour j, by the page's second table."""
    # If i points at j, the rows are: j points back, j isn't married although its m is true, or neither. If i doesn't
    # point at j, they are: j is married and its m is true, or not.
    both, deceived, waits, settled, rest = (int(row[1]) for row in rows("Part of i for a higher neighbour j"))
    if world.p[i] == j:
        return both if world.p[j] == i else deceived if world.m[j] and not world.married(j) else waits
    return settled if world.m[j] and world.married(j) else rest


def configurations() -> list[World]:
    """Returns the world at the beginning and after each close, with the registers that the program showed."""
    world = read_lab(LAB.read_bytes()).world
    found = [world]
    for line in SHOWN.read_text(encoding="ascii").splitlines():
        reply = json.loads(line.partition(" ")[2])
        if reply["ok"] == "close":
            found.append(World(world.links, dict(found[-1].p), dict(found[-1].m)))
        if reply["ok"] == "see":
            found[-1].p[reply["node"]], found[-1].m[reply["node"]] = reply["p"], reply["m"]
    return found


class ByHand(unittest.TestCase):
    """The page's table of the five nodes. The columns of a row are the configuration, the pointers, the nodes at which
    m is true, the parts of the nodes 1 to 5, their sum, and the moves in the next step."""

    def test_each_row_has_the_registers_and_parts_of_its_configuration(self) -> None:
        table, worlds = rows("Configuration"), configurations()
        self.assertEqual(len(table), len(worlds))
        for row, world in zip(table, worlds):
            pointers = {(int(a), int(b)) for a, b in re.findall(r"(\d)[→↔](\d)", row[1])}
            pointers |= {(int(b), int(a)) for a, b in re.findall(r"(\d)↔(\d)", row[1])}
            self.assertEqual(pointers, {(i, p) for i, p in world.p.items() if p is not None}, row)
            self.assertEqual(set(map(int, re.findall(r"\d", row[2]))), {i for i in world.nodes() if world.m[i]}, row)
            for i in range(1, HIGHEST + 1):
                parts = [own_part(world, i)] + [link_part(world, i, j) for j in world.near(i) if j > i]
                self.assertEqual(row[2 + i], " + ".join(map(str, parts)), f"node {i} of {row}")

    def test_each_sum_falls_by_at_least_the_number_of_moves(self) -> None:
        """Also checks that the numbers of moves are those in the output, and that the page's text names the falls and
        the number of all moves."""
        table = rows("Configuration")
        sums = [int(row[8]) for row in table]  # the column of the sum follows those of the five parts
        for row, total in zip(table, sums):
            self.assertEqual(sum(map(int, re.findall(r"\d+", " ".join(row[3:8])))), total, row)
        moves = [int(row[9].partition(":")[0]) for row in table[:-1]]  # the last column, which is empty in the last row
        closes = [len(json.loads(line[2:])["moved"]) for line in SHOWN.read_text(encoding="ascii").splitlines() if '"ok":"close"' in line]
        self.assertEqual(moves, closes)
        self.assertTrue(all(before - after >= moved for before, after, moved in zip(sums, sums[1:], moves)))
        self.assertIn(f"the sum falls by {', '.join(str(a - b) for a, b in zip(sums, sums[1:-1]))} and {sums[-2] - sums[-1]}", PAGE)
        self.assertIn(f"There are {sum(moves)} moves in all", PAGE)


if __name__ == "__main__":
    unittest.main()
