"""The imports of `classroom` go in one direction: each package uses only those below it, and no module depends on
itself through others."""
from __future__ import annotations

import ast
import unittest
from functools import cache
from graphlib import CycleError, TopologicalSorter
from pathlib import Path

from tools.check.parts import TOP

# Each package of `classroom` imports its own modules and those of the packages before it.
PACKAGES = ("core", "door", "setup", "pages", "marks", "run", "bots")
BOTTOM, TOPMOST = "classroom.client", "classroom.words"  # beside the packages: below all, and above all
OF_PAGES = (".css", ".html", ".js")
Sources = dict[str, str]  # the text of each module


def sources() -> Sources:
    """Returns the text of each module of `classroom`, by its name."""
    files = sorted((TOP / "classroom").rglob("*.py"))
    return {name_of(file): file.read_text(encoding="utf-8") for file in files}


def name_of(file: Path) -> str:
    """Returns the dotted name of the module in a file."""
    return ".".join(file.relative_to(TOP).with_suffix("").parts).removesuffix(".__init__")


def height(module: str) -> int:
    """Returns the level of a module: the place of its package in PACKAGES, -1 for the modules below all packages, or a
    number above all places for TOPMOST. A module may import from its own level and from lower ones."""
    if module in (BOTTOM, "classroom"):
        return -1
    return len(PACKAGES) if module == TOPMOST else PACKAGES.index(module.split(".")[1])


def origin(module: str, node: ast.ImportFrom, is_package: bool) -> str:
    """Returns the dotted name of the module from which the statement `node` of a module imports, also if the statement
    has a relative name. `is_package` says whether the module is that of a package."""
    parts = module.split(".")
    near = parts[:len(parts) + is_package - node.level] if node.level else []
    return ".".join([*near, *([node.module] if node.module else [])])


@cache
def imports_in(module: str, text: str, is_package: bool) -> tuple[tuple[str, str], ...]:
    """Returns a pair for each import in the text of a module: the module from which a name is imported, and this name.
    If a whole module is imported, the second is empty. If the module is only known at run time, the first is `?`.
    `is_package` says whether the module is that of a package."""
    found: list[tuple[str, str]] = []
    for node in ast.walk(ast.parse(text)):
        if isinstance(node, ast.Import):
            found += [(it.name, "") for it in node.names]
        elif isinstance(node, ast.ImportFrom):
            found += [(origin(module, node, is_package), it.name) for it in node.names]
        elif isinstance(node, ast.Call) and ast.unparse(node.func).rpartition(".")[2] in ("import_module", "__import__"):
            found.append(("?", ""))
    return tuple(found)


def imported(module: str, known: Sources) -> list[str]:
    """Returns the modules that a module imports, those of `classroom` by their full names. `known` has the sources of
    `classroom`, by module."""
    is_package = any(it.startswith(f"{module}.") for it in known)
    found = imports_in(module, known[module], is_package)
    return [f"{whole}.{name}" if f"{whole}.{name}" in known else whole for whole, name in found]


def circle(uses: dict[str, list[str]]) -> list[str]:
    """Returns a cycle of imports as a list in which each module imports the next one, or an empty list if there is no
    cycle. `uses` has the imports of each module."""
    try:
        TopologicalSorter(uses).prepare()
    except CycleError as error:
        return [*error.args[1]][::-1]  # The error has the imported module before the one that imports it.
    return []


def faults(known: Sources) -> list[str]:
    """Returns error texts about these imports in the sources `known`: those that go up or in a circle, those from the
    folders `tests`, `tools` and `bench`, and, outside of the module TOPMOST, those whose name only a run shows. `known`
    has the text of each module."""
    found, uses = [], dict[str, list[str]]()
    for module in known:
        every = imported(module, known)
        uses[module] = [it for it in every if it in known and height(it) == height(module)]
        found += [f"{module} imports {it}: that isn't a part of what is released" for it in every if it.split(".")[0] in ("tests", "tools", "bench")]
        found += [f"{module} imports {it}: that is above it" for it in every if it in known and height(it) > height(module)]
        found += [f"{module} imports what only a run shows" for it in every if it == "?" and module != TOPMOST]
    way = circle(uses)
    return found + ([f"a circle of imports: {' '.join(way)}"] if way else [])


class Imports(unittest.TestCase):
    """The packages, and what they import."""

    def test_the_imports_of_classroom_have_no_fault(self) -> None:
        self.assertEqual(faults(sources()), [])

    def test_an_import_from_above_or_from_outside_is_a_fault(self) -> None:
        """Each forbidden import is added to the real sources in turn."""
        above = (
            ("core.lab", "from classroom.run import desk", "classroom.run.desk"),
            ("core.lab", "import classroom.bots.grade", "classroom.bots.grade"),
            ("core.lab", "from ..pages.page import FOLDER", "classroom.pages.page"),
            ("core", "from . import lab\nfrom .. import words", "classroom.words"),
            ("setup.new", "def f():\n    from classroom.pages import play as shown", "classroom.pages.play"),
            ("marks.mark", "if TYPE_CHECKING:\n    from classroom.run.desk import Desk", "classroom.run.desk"),
            ("run.run", "from classroom import bots", "classroom.bots"),
            ("bots.grade", "from classroom.words import parser", "classroom.words"),
            ("client", "from classroom.core.lab import read", "classroom.core.lab"),
        )
        for name, line, target in above:
            self.assertEqual(self.faults_with(name, line), [f"classroom.{name} imports {target}: that is above it"], line)
        self.assertEqual(self.faults_with("run.run", "from tests.model import lab"),
                         ["classroom.run.run imports tests.model: that isn't a part of what is released"])
        self.assertEqual(self.faults_with("core.lab", "importlib.import_module(f'classroom.{name}')"), ["classroom.core.lab imports what only a run shows"])

    def test_a_circle_of_imports_is_a_fault(self) -> None:
        found = self.faults_with("run.closing", "if TYPE_CHECKING:\n    from classroom.run.desk import Desk")
        self.assertEqual(len(found), 1)
        self.assertRegex(found[0], r"^a circle of imports: (?=.*classroom\.run\.closing classroom\.run\.desk)")

    def test_each_file_of_classroom_is_in_a_known_package(self) -> None:
        files = [it for it in (TOP / "classroom").rglob("*") if it.is_file() and "__pycache__" not in it.parts]
        beside = {name_of(it) for it in files if it.parent == TOP / "classroom"}
        self.assertEqual(beside, {"classroom", BOTTOM, TOPMOST})
        self.assertEqual({it.parent.name for it in files} - {"classroom"}, {*PACKAGES})
        self.assertEqual({it.suffix for it in files if it.parent.name == "pages"}, {".py", *OF_PAGES})
        self.assertEqual({it.suffix for it in files if it.parent.name != "pages"}, {".py"})

    def faults_with(self, name: str, line: str) -> list[str]:
        """Returns the error texts about the sources of `classroom`, with a line added to the text of the module
        `name`."""
        known = sources()
        known[f"classroom.{name}"] += f"\n{line}\n"
        return faults(known)


if __name__ == "__main__":
    unittest.main()
