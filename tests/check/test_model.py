"""The plain model imports nothing else, is short enough to be read in an hour, and reproduces the stored outputs
of scripts."""
from __future__ import annotations

import ast
import re
import shutil
import subprocess
import sys
import tempfile
import unittest
from pathlib import Path

from model import Ended, run_command
from model.policy import DENIALS
from tools.check.parts import TOP

MODULES = sorted((TOP / "model").glob("*.py"))
MOST_LINES = 1600


class Model(unittest.TestCase):
    """The sources of `model/`."""

    def test_the_model_is_short(self) -> None:
        lines = sum(len(file.read_text(encoding="utf-8").splitlines()) for file in MODULES)
        self.assertLess(lines, MOST_LINES)
        self.assertGreater(len(MODULES), 9)  # Otherwise the modules weren't found.

    def test_the_model_imports_only_itself_and_the_standard_library(self) -> None:
        for file in MODULES:
            for node in ast.walk(ast.parse(file.read_text(encoding="utf-8"))):
                names = [it.name for it in node.names] if isinstance(node, ast.Import) else []
                if isinstance(node, ast.ImportFrom):
                    self.assertEqual(node.level, 0, file.name)
                    names = [node.module or ""]
                for name in names:
                    self.assertIn(name.partition(".")[0], {"model", *sys.stdlib_module_names}, file.name)

    def test_each_rule_and_each_denial_has_the_comment_of_its_rule_or_clause(self) -> None:
        world = (TOP / "model/world.py").read_text(encoding="utf-8")
        for rule in ("Update", "Marriage", "Seduction", "Abandonment"):
            self.assertEqual(len(re.findall(rf"(?m)^ +# {rule}\b", world)), 2, f"{rule}: a guard and an effect")
        # Each denial is returned once, below the comment of its clause. `not-greeted` is returned in the module `run`,
        # and all others in `policy`.
        found = []
        for name in ("policy", "run"):
            clause = ""
            for line in (TOP / f"model/{name}.py").read_text(encoding="utf-8").splitlines():
                comment = re.search(r"#.*[Cc]lause (\d)", line)
                clause = comment[1] if comment else clause
                found += [(denied, clause) for denied in re.findall(r'"([a-z]+(?:-[a-z]+)*)"', line)
                          if re.search(r"\breturn\b|denied\(", line)]
        for denial, (number, _) in DENIALS.items():
            self.assertIn((denial, str(number)), found)


class Called(unittest.TestCase):
    """Calls of the model in a folder that has only the model and the examples."""

    def setUp(self) -> None:
        """Copies the model and the examples to a new folder."""
        room = tempfile.TemporaryDirectory()
        self.addCleanup(room.cleanup)
        self.room = Path(room.name)
        for name in ("model", "examples"):
            shutil.copytree(TOP / name, self.room / name, ignore=shutil.ignore_patterns("__pycache__"))

    def call(self, *words: str | Path) -> tuple[int, str, str]:
        """Runs the model with these arguments. Returns its exit status, its output and its standard error."""
        done = subprocess.run([sys.executable, "-B", "-m", "model", *words], cwd=self.room, capture_output=True, text=True, check=False)
        return done.returncode, done.stdout, done.stderr

    def test_the_model_reproduces_all_stored_outputs(self) -> None:
        done = subprocess.run([sys.executable, "-B", "-m", "model", "--all"], cwd=TOP, capture_output=True, text=True, check=False)
        self.assertEqual((done.returncode, done.stderr), (0, ""), done.stdout)
        self.assertRegex(done.stdout, r"^[0-9]+ scripts were played; 0 outputs differ from the stored files\n$")

    def test_an_output_that_differs_is_written_beside_the_old_one(self) -> None:
        """One word of a stored output is changed. The stored file stays as it is, and the difference is printed as a
        line with `-` and one with `+`. When the stored output is right again, the new file is removed."""
        stored, new = self.room / "examples/path-run.out", self.room / "examples/path-run.out.new"
        right = stored.read_text(encoding="ascii")
        wrong = right.replace('"ok":"close"', '"ok":"closed"', 1)
        stored.write_text(wrong, encoding="ascii")
        status, out, error = self.call("--all")
        self.assertEqual((status, error, new.read_text(encoding="ascii"), stored.read_text(encoding="ascii")), (1, "", right, wrong))
        changed = [line for line in out.splitlines() if re.match(r"[-+]\d", line)]
        self.assertEqual([line[0] for line in changed], ["-", "+"], out)
        self.assertIn('"ok":"closed"', changed[0])
        self.assertIn("; 1 outputs differ from the stored files. The new outputs are in FILE.new\n", out)
        stored.write_text(right, encoding="ascii")
        self.assertEqual(self.call("--all")[0], 0)
        self.assertFalse(new.exists())

    def test_a_script_with_a_bad_line_is_a_failure_even_if_no_output_differs(self) -> None:
        script = self.room / "examples/path-run.script"
        lines = len(script.read_text(encoding="ascii").splitlines())
        with script.open("a", encoding="ascii") as it:
            it.write("no line of a script\n")
        status, out, error = self.call("--all")
        self.assertEqual((status, error), (1, ""))
        self.assertIn(f"examples/path-run.script: line {lines + 1} isn't a line of a script\n", out)
        self.assertRegex(out, r"scripts were played; 0 outputs differ from the stored files\n$")

    def test_wrong_command_lines_and_missing_files_have_their_errors(self) -> None:
        lab, journal = self.room / "examples/path.toml", self.room / "journal"
        self.assertEqual(self.call("check", lab), (0, "ok: 6 nodes, 5 links, 6 students\n", ""))
        calls: list[list[str | Path]] = [["serve", lab], ["check"], ["audit", lab], ["audit", lab, "-"], ["verify", lab, journal], []]
        for words in calls:
            status, out, error = self.call(*words)
            self.assertEqual((status, out, error.splitlines()[0]), (1, "", "command line: not understood"), words)
        self.assertEqual(run_command(["audit", str(lab), str(journal)]), Ended(4, b"", b"read fault: journal\n"))
        self.assertEqual(run_command(["audit", str(journal), str(lab)]), Ended(4, b"", b"read fault: lab\n"))

    def test_an_existing_journal_is_not_overwritten(self) -> None:
        """The first run of the script makes the journal. The second run fails with an error, since the file exists."""
        lab, script, journal = self.room / "examples/path.toml", self.room / "examples/path-run.script", self.room / "journal"
        self.assertEqual(run_command(["script", str(lab), str(script), str(journal)]).status, 0)
        kept = journal.read_bytes()
        self.assertTrue(kept)
        self.assertEqual(run_command(["script", str(lab), str(script), str(journal)]), Ended(4, b"", b"journal fault\n"))
        self.assertEqual(journal.read_bytes(), kept)


if __name__ == "__main__":
    unittest.main()
