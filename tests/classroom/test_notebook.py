"""The notebook of lesson 6. The notebook's cells run on a table of `experiment`, alone and in nbconvert."""
from __future__ import annotations

import contextlib
import io
import json
import os
import shutil
import subprocess
import unittest
import unittest.mock
from pathlib import Path
from typing import Any

from classroom.core.program import TOP
from tests.classroom.help import LIMIT, InRoom

NOTEBOOK = TOP / "course/how-long.ipynb"
# A small table in the form of `experiment --csv`, and texts that the cells print about it. With 4 nodes, the median of 12 and
# 14 moves is 13, and the bound is 20. With twice as many nodes there are twice as many moves, so the power is 1.
HEADS = "family,nodes,links,daemon,start,seed,moves,closes,rounds,stable\n"
ROWS = ("crowd,4,4,central,worst,1,12,12,6,true", "crowd,4,4,central,worst,2,14,14,5,true", "crowd,8,16,central,worst,1,26,26,7,true",
        "random:6:9,6,9,synchronous,random,1,16,7,6,true")
WANTED = ("4 runs of crowd, random", "crowd      central            4     2      13       14     20", "moves grow about as n to the power of 1.0",
          "crowd of 4 nodes, central, seed 2: 14 moves, 70% of the bound")


class Notebook(InRoom):
    """The notebook with a small table."""

    def setUp(self) -> None:
        """Writes the table, and reads the cells from the notebook's file."""
        super().setUp()
        self.table = self.file("runs.csv", HEADS + "".join(f"{row}\n" for row in ROWS))
        self.cells: list[dict[str, Any]] = json.loads(NOTEBOOK.read_text(encoding="utf-8"))["cells"]

    def run_cells(self, table: Path) -> str:
        """Runs the notebook's cells on a table, in this process. Returns what they print."""
        printed, names = io.StringIO(), dict[str, Any]()
        with unittest.mock.patch.dict(os.environ, RUNS=str(table)), contextlib.redirect_stdout(printed):
            for cell in self.cells:
                if cell["cell_type"] == "code":
                    exec("".join(cell["source"]), names)  # Runs the cell as a kernel does.
        return printed.getvalue()

    def test_the_cells_print_the_numbers_of_the_table_s_runs(self) -> None:
        told = self.run_cells(self.table)
        for line in WANTED:
            self.assertIn(line, told)

    def test_a_cell_raises_an_error_if_a_run_has_more_moves_or_rounds_than_proved(self) -> None:
        """With 4 nodes and 4 links there are at most 20 moves and 8 rounds. Such a run would be news, as the error
        says."""
        for moves, rounds in ((21, 6), (12, 9)):
            table = self.file("news.csv", f"{HEADS}crowd,4,4,central,worst,1,{moves},12,{rounds},true\n")
            with self.assertRaisesRegex(AssertionError, "would be news"):
                self.run_cells(table)

    def test_the_file_of_the_notebook_contains_no_outputs(self) -> None:
        self.assertEqual([cell for cell in self.cells if cell.get("outputs") or cell.get("execution_count")], [])

    def test_nbconvert_makes_a_page_of_the_notebook_with_the_numbers_of_the_table(self) -> None:
        if shutil.which("jupyter-nbconvert") is None:
            self.skipTest("not tried: no jupyter-nbconvert (Debian's jupyter-nbconvert and python3-ipykernel)")
        done = subprocess.run(["jupyter-nbconvert", "--to", "html", "--execute", NOTEBOOK, "--output-dir", self.room], capture_output=True, text=True,
                              check=False, timeout=LIMIT, env={**os.environ, "RUNS": str(self.table), "HOME": str(self.room)})
        self.assertEqual(done.returncode, 0, done.stderr)
        page = (self.room / "how-long.html").read_text(encoding="utf-8")
        for line in WANTED:
            self.assertIn(line, page)


if __name__ == "__main__":
    unittest.main()
