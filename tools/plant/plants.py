"""Plants: bugs that are put into bodies of the crates, to find out which bugs neither the prover nor a test would see.

A plant is a file `crates/NAME/plants/WHAT_IT_DOES.edit`, in the form of a wrong body (`tools.wrong.edits`) without a goal:

    # in: file_sink::FileSink::write
    # seen: tests.resume failed_sync
    file: src/lib.rt
    old: TEXT
    new: TEXT

Each TEXT is one line. The text after `old` occurs exactly once in the file, and further pairs apply to the result of the
earlier ones. At least one of the first two lines is present. `in` names the function, below its crate, about which the
prover is asked. `seen` names a test that has to fail: its module, and its name.
"""
from __future__ import annotations

from dataclasses import dataclass
from pathlib import Path

from tools.wrong.edits import Edit, EditFault, apply_edit, parse_pairs

IN, SEEN = "# in:", "# seen:"
WORDS = {IN: ("FUNCTION",), SEEN: ("MODULE", "TEST")}


class PlantFault(Exception):
    """Raised if a plant can't be tried. The text is the reason."""


@dataclass(frozen=True)
class Plant:
    """A bug: its change of the sources, the function that has it, and the module and name of the test that finds it.
    Parts that the file lacks are empty."""

    crate: str
    edit: Edit
    function: str = ""
    module: str = ""
    test: str = ""

    @property
    def name(self) -> str:
        """Returns the name of the plant, CRATE/NAME."""
        return f"{self.crate}/{self.edit.name.removesuffix('.edit')}"


def words_after(name: str, text: str, mark: str) -> list[str]:
    """Returns the words after the mark `mark`, such as `# seen:`, in the text of a plant's file. WORDS has what the
    words of each mark mean. If there is no such line, returns as many empty texts. Raises `PlantFault` if the line has
    another form or occurs twice. `name` is that of the plant, for the error."""
    found = [line.removeprefix(mark).split() for line in text.splitlines() if line.startswith(mark)]
    if len(found) > 1 or any(len(words) != len(WORDS[mark]) for words in found):
        raise PlantFault(f"{name}: there may be one line that begins with '{mark}', of the form '{mark} {' '.join(WORDS[mark])}'")
    return found[0] if found else [""] * len(WORDS[mark])


def parse_plant(crate: str, name: str, text: str) -> Plant:
    """Returns the plant of a crate in the text of the file `name`. Raises `PlantFault` if the text isn't a plant."""
    (function,), (module, test) = (words_after(f"{crate}/{name}", text, mark) for mark in WORDS)
    if not function and not test:
        raise PlantFault(f"{crate}/{name}: there is neither a line '{IN} FUNCTION' nor a line '{SEEN} MODULE TEST'")
    rest = "".join(line for line in text.splitlines(keepends=True) if not line.startswith(tuple(WORDS)))
    try:
        return Plant(crate, Edit(name, (), parse_pairs(name, rest)), function, module, test)
    except EditFault as fault:
        raise PlantFault(f"{crate}/{fault}") from None


def planted(plant: Plant, folder: Path) -> dict[str, str]:
    """Returns the texts of the files of a crate's folder that a plant changes, after the change. Raises `PlantFault` if
    the change doesn't fit them."""
    try:
        return apply_edit(plant.edit, {}, folder)
    except EditFault as fault:
        raise PlantFault(f"{plant.crate}/{fault}") from None


def plants_of(crate: str, folder: Path) -> list[Plant]:
    """Returns the plants in a crate's folder, in the order of their names. Raises `PlantFault` if a file there isn't a
    plant or doesn't fit the sources."""
    found = [parse_plant(crate, path.name, path.read_text(encoding="utf-8")) for path in sorted((folder / "plants").glob("*"))]
    for plant in found:
        planted(plant, folder)
    return found
