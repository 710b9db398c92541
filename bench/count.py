"""Counts the instructions per line of this program and of the one that is written by hand, with valgrind's
callgrind.

    python3 -B -m bench.count [ROW..]

Each figure compares two runs of different lengths: the difference of the instructions, divided by the difference
of the lines, so that the start isn't counted. Before a figure is printed, both programs have to write the same
output for the longer input. With arguments, only the rows whose names contain one of them are counted.
"""
import sys
import tempfile
from collections.abc import Callable, Iterable
from dataclasses import dataclass
from pathlib import Path

from bench import inputs
from bench.common import PROGRAM, TYPED, Words, built_in, count_instructions, output_of, require_valgrind, refuse, stripped


@dataclass(frozen=True)
class Row:
    """A measurement: its lab, a function that returns the lines of a number of turns, and two such numbers, `few` and
    `many`. A turn is a few lines that are repeated. `words` is the command line, and `lines` is the number of lines
    that count as one."""

    name: str
    lab: Callable[[], str]
    text: Callable[[int], Iterable[str]]
    few: int
    many: int
    words: tuple[str, ...] = ("script", "LAB", "TEXT")
    lines: int = 1


PIPED = ("PIPE",)
ROWS = (
    Row("see, standard input", built_in, inputs.sees, 2_000, 22_000, PIPED),
    Row("see, file", inputs.largest_built_in, inputs.sees, 2_000, 22_000),
    Row("mixed, file", inputs.largest_built_in, inputs.mixed, 300, 3_300),
    Row("granted move or release", inputs.largest_built_in, inputs.granted, 1_000, 8_000),
    Row("look, 64 nodes of six neighbours", lambda: inputs.ring(64, 3), inputs.looks, 1_000, 9_000),
    Row("hello and bye, both", inputs.largest_built_in, inputs.greetings, 1_000, 8_000, lines=2),
    Row("report, 3 nodes", lambda: inputs.ring(3), inputs.reports, 100, 1_100),
    Row("report, 64 nodes", lambda: inputs.ring(64), inputs.reports, 20, 120),
    Row("report, 256 nodes", lambda: inputs.ring(256), inputs.reports, 20, 120),
    Row('a line with "x":[]', inputs.largest_built_in, inputs.sees_and_more, 2_000, 22_000),
    Row("student's see, all links", inputs.all_links, inputs.sees_of_all, 256, 5_376),
    Row("look there", inputs.all_links, inputs.looks_at_last, 50, 550),
    Row("a line of an audit", inputs.largest_built_in, inputs.journal, 333, 33_333, ("audit", "LAB", "TEXT")),
)


class Counter:
    """A counter of the instructions that runs of the two programs take. Their files are in one folder."""

    def __init__(self, folder: Path) -> None:
        """Copies the two programs into `folder`, which is empty, without their debugging information."""
        self.programs = stripped(PROGRAM, folder / "ours"), stripped(TYPED, folder / "typed")
        self.lab, self.text = folder / "lab", folder / "text"

    def command(self, row: Row, index: int) -> Words:
        """Returns the command line of a program for a row. With index 0 it is this project's program, and with index 1
        the program that is written by hand. For a piped row the first gets no arguments, so it reads standard input and
        uses its built-in lab."""
        program = self.programs[index]
        if row.words == PIPED:
            return [program] if index == 0 else [program, "script", self.lab, "/dev/stdin"]
        named = {"LAB": self.lab, "TEXT": self.text}
        return [program, *(named.get(word, word) for word in row.words)]

    def write(self, row: Row, turns: int) -> int:
        """Writes the lines that `row.text` returns for `turns` turns to the file that the programs read. Returns the
        number of lines."""
        lines = list(row.text(turns))
        self.text.write_text("".join(line + "\n" for line in lines), encoding="ascii")
        return len(lines)

    def count(self, row: Row) -> list[float]:
        """Returns the instructions per line of a row, for this program and for the one that is written by hand. Exits
        with an error line if their outputs differ. Raises `CalledProcessError` if a program fails."""
        self.lab.write_text(row.lab(), encoding="ascii")
        less = self.write(row, row.few)
        before = [count_instructions(self.command(row, index), self.text) for index in range(2)]
        more = self.write(row, row.many)
        if output_of(self.command(row, 0), self.text) != output_of(self.command(row, 1), self.text):
            refuse(f"{row.name}: the outputs of the two programs differ")
        after = [count_instructions(self.command(row, index), self.text) for index in range(2)]
        return [row.lines * (b - a) / (more - less) for a, b in zip(before, after)]


def main() -> None:
    """Prints a table with all rows, or with those whose names contain one of the arguments."""
    require_valgrind()
    asked = sys.argv[1:]
    rows = [row for row in ROWS if not asked or any(word in row.name for word in asked)]
    with tempfile.TemporaryDirectory() as folder:
        counter = Counter(Path(folder))
        print("| Instructions a line | Ours | Typed, by hand | Ratio |\n|---|---|---|---|")
        for row in rows:
            ours, typed = counter.count(row)
            print(f"| {row.name} | {ours:,.0f} | {typed:,.0f} | {ours / typed:.2f} |", flush=True)


if __name__ == "__main__":
    main()
