"""The options `--part K/N` and `--merge FILE..` of `./class experiment` and `./class grade`. Part K of N has every N-th
run or case, from the K-th on. The merged results of all parts are those of a single call without parts, byte for byte,
also if GNU parallel makes the parts."""
from __future__ import annotations

import argparse
import json
import re
import shlex
import shutil
import subprocess
import sys
import unittest
from dataclasses import replace
from pathlib import Path

from classroom.bots import experiment
from classroom.bots.measuring import Row
from classroom.bots.parts import joined, of, part
from classroom.core.program import TOP, Fault
from tests.classroom.help import EXAMPLES, LIMIT, InRoom, call_class

# 54 runs: with three families, three sizes and two daemons, three runs each.
RUNS: tuple[str, ...] = ("experiment", "--family", "path,cycle,random", "--nodes", "4..6", "--runs", "3", "--at-once", "1")
CALL = f"{shlex.quote(sys.executable)} {shlex.quote(str(TOP / 'class'))}"  # calls `./class` in a shell line
MOVES = 6  # the column of the table that has the number of moves


class Numbers(unittest.TestCase):
    """The items of a part, and the argument that names it."""

    def test_each_item_is_in_exactly_one_part(self) -> None:
        """Without a part, `of` returns all items."""
        for count in (0, 1, 7, 20):
            for number in (1, 2, 3, 30):
                every = [each for k in range(1, number + 1) for each in of(range(count), (k, number))]
                self.assertEqual(sorted(every), list(range(count)))
        self.assertEqual((of("abcdefg", (2, 3)), of("ab", None)), (["b", "e"], ["a", "b"]))

    def test_an_argument_names_a_part_by_k_of_n_with_k_from_1_to_n(self) -> None:
        """Any other text is refused, also one with digits that aren't ASCII."""
        self.assertEqual((part("2/8"), part("1/1")), ((2, 8), (1, 1)))
        for word in ("0/8", "9/8", "2", "2/0", "-1/2", "a/b", "1/2/3", "٣/٤"):
            with self.assertRaises(argparse.ArgumentTypeError):
                part(word)


class Differing(InRoom):
    """Files of parts that differ about the same run or case."""

    def test_the_error_about_two_tables_names_both_files(self) -> None:
        """The error names the table that differs, and the first table that has the run. This is the table of `--csv`,
        or an earlier one of `--merge`."""
        row = Row("path", 4, 3, "central", "random", 1, 5, 5, 2, True)
        named = {name: self.table(name, rows) for name, rows in (
            ("all.csv", [row]), ("same.csv", [row]), ("more.csv", [replace(row, seed=2)]), ("wrong.csv", [replace(row, moves=6)]),
            ("wrong-2.csv", [replace(row, seed=2, moves=6)]))}
        self.assertEqual([*experiment.joined(named["all.csv"], [named["same.csv"], named["more.csv"]]).values()], [row, replace(row, seed=2)])
        for table, others, where in (("all.csv", ["same.csv", "wrong.csv"], "all.csv"), ("none.csv", ["same.csv", "wrong.csv"], "same.csv"),
                                     ("all.csv", ["more.csv", "wrong-2.csv"], "more.csv")):
            told = f"{named[others[-1]]}: the table {named[where]} has different numbers for the same run. "
            with self.subTest(table=table, others=others), self.assertRaisesRegex(Fault, f"^{re.escape(told)}"):
                experiment.joined(named.get(table, self.room / table), [named[name] for name in others])

    def table(self, name: str, rows: list[Row]) -> Path:
        """Writes a table with these rows, and returns its path."""
        return self.file(name, ",".join(experiment.COLUMNS) + "\n" + "".join(map(experiment.line_of, rows)))

    def test_the_error_about_two_results_of_a_case_names_both_files(self) -> None:
        case: dict[str, object] = {"bot": "bot.py", "lab": "cycle", "daemon": "central", "seed": 1, "passed": True, "why": "", "moves": 4, "denied": {}}
        files = [self.file(f"part-{number}.json", json.dumps([case | {"moves": moves}])) for number, moves in ((1, 4), (2, 5))]
        order = [("bot.py", "cycle central 1")]
        self.assertEqual(len(joined(files[:1], order)[0]), 1)
        told = f"{files[1]}: the case bot.py cycle central 1 has a different result in {files[0]}: leave out one of the two files"
        with self.assertRaisesRegex(Fault, f"^{re.escape(told)}$"):
            joined(files, order)


class Experiments(InRoom):
    """Tables of experiments."""

    def table_of_one_call(self) -> bytes:
        """Makes all runs by a single call, without parts. Returns the bytes of its table."""
        whole = self.room / "whole.csv"
        done = call_class(*RUNS, "--csv", whole)
        self.assertEqual(done.returncode, 0, done.stderr)
        return whole.read_bytes()

    def test_the_merged_table_is_that_of_one_call(self) -> None:
        """The order of the files doesn't matter. Each part has about a third of the runs."""
        whole = self.table_of_one_call()
        files = [self.room / f"part-{number}.csv" for number in (1, 2, 3)]
        for number, file in enumerate(files, 1):
            self.assertEqual(call_class(*RUNS, "--part", f"{number}/3", "--csv", file).returncode, 0)
        lines = [line for file in files for line in file.read_text().splitlines()[1:]]
        self.assertEqual(sorted(lines), sorted(whole.decode().splitlines()[1:]))
        self.assertTrue(all(len(file.read_text().splitlines()) > 10 for file in files))
        merged = self.room / "merged.csv"
        done = call_class(*RUNS, "--merge", *files[::-1], "--csv", merged)
        self.assertEqual((done.returncode, merged.read_bytes()), (0, whole), done.stderr)
        self.assertIn("54 of 54 runs are done, all within the proved bounds", done.stdout)
        self.check_bad_merges(files)

    def check_bad_merges(self, files: list[Path]) -> None:
        """Checks that a merge without the last of these files counts only the runs that the others have. Also checks
        that a merge is refused if two tables differ about a run, or if a table doesn't exist."""
        done = call_class(*RUNS, "--merge", *files[:2], "--csv", self.room / "two.csv")
        self.assertEqual(done.returncode, 5)
        self.assertIn("36 of 54 runs are done, ", done.stdout)
        text = files[0].read_text().splitlines()
        row = text[1].split(",")
        row[MOVES] = str(int(row[MOVES]) + 1)
        other = self.file("other.csv", "\n".join([text[0], ",".join(row)]) + "\n")
        said = call_class(*RUNS, "--merge", *files, other, "--csv", self.room / "differ.csv")
        self.assertEqual((said.returncode, said.stdout), (4, ""))
        self.assertIn(f"{other}: the table {files[0]} has different numbers for the same run. ", said.stderr)
        self.assertEqual(call_class(*RUNS, "--merge", self.room / "none.csv", "--csv", self.room / "x.csv").returncode, 4)

    @unittest.skipUnless(shutil.which("parallel"), "not tried: parallel")
    def test_gnu_parallel_spreads_the_parts(self) -> None:
        """The commands of docs/OPERATE.md make the same table as one call. Here they have the runs of this test and
        three parts, of which two are made at once."""
        whole = self.table_of_one_call()
        shown = (TOP / "docs/OPERATE.md").read_text(encoding="utf-8")
        for line in ("parallel ./class experiment --runs 1000 --part {}/8 --csv part-{}.csv ::: $(seq 8)",
                     "./class experiment --runs 1000 --merge part-*.csv --csv all.csv"):
            self.assertIn(line, shown)
            asked = line.replace("./class experiment --runs 1000", f"{CALL} {' '.join(RUNS)}").replace("/8", "/3").replace("seq 8", "seq 3")
            done = subprocess.run(["bash", "-c", asked.replace("parallel ", "parallel --will-cite -j 2 ", 1)], cwd=self.room, stdin=subprocess.DEVNULL,
                                  capture_output=True, text=True, check=False, timeout=LIMIT)
            self.assertEqual(done.returncode, 0, done.stderr)
        self.assertEqual((self.room / "all.csv").read_bytes(), whole)


class Grades(InRoom):
    """Results of grades."""

    def write_part(self, file: Path, number: int, count: int) -> None:
        """Writes the results of part `number` of `count` into a file, without grading. Takes them from `whole.json`,
        the results of the whole grade."""
        every = json.loads((self.room / "whole.json").read_text(encoding="utf-8"))
        file.write_text(json.dumps(of(every, (number, count))), encoding="utf-8")

    def test_the_merged_results_are_those_of_one_call(self) -> None:
        """Part 1 of 2 is graded, and part 2 is copied from the results of the whole grade. Then the result in part 1 is
        replaced too, since its numbers of moves and denials depend on the time. A merge without part 1 names the
        missing case. With another suite, the results are refused, since it doesn't have their cases."""
        labs = self.room / "labs"
        labs.mkdir()
        (labs / "cycle.toml").write_bytes((EXAMPLES / "cycle.toml").read_bytes())
        asked = ("grade", EXAMPLES / "bot.py", "--labs", labs, "--daemon", "central,synchronous", "--timeout", "200", "--into", self.room / "grades")
        whole = call_class(*asked, "--json", self.room / "whole.json", "--gradescope", self.room / "whole.scope")
        self.assertEqual(whole.returncode, 0, whole.stdout + whole.stderr)
        first = call_class(*asked, "--part", "1/2", "--json", self.room / "part-1.json")
        self.assertEqual(first.stdout.count("passed  bot.py: "), 1, first.stdout)
        self.assertIn("bot.py: 1 of 1 cases passed", first.stdout)
        self.write_part(self.room / "part-2.json", 2, 2)
        files = [self.room / "part-2.json", self.room / "part-1.json"]
        self.replace_by_whole(self.room / "part-1.json")
        done = call_class(*asked, "--merge", *files, "--json", self.room / "all.json", "--gradescope", self.room / "all.scope")
        self.assertEqual(done.returncode, 0, done.stdout + done.stderr)
        self.assertEqual(sorted(case["daemon"] for case in json.loads((self.room / "all.json").read_text())), ["central", "synchronous"])
        self.assertEqual(done.stdout.splitlines()[-1], "bot.py: 2 of 2 cases passed")
        self.assertEqual((self.room / "all.json").read_bytes(), (self.room / "whole.json").read_bytes())
        self.assertEqual((self.room / "all.scope").read_bytes(), (self.room / "whole.scope").read_bytes())
        lacking = call_class(*asked, "--merge", files[0])
        self.assertEqual(lacking.returncode, 5)
        self.assertIn("class: no file has a result of 1 case (bot, lab, daemon and seed): bot.py cycle central 1. Name the files of "
                      "all parts after --merge\n", lacking.stdout)
        other = call_class("grade", EXAMPLES / "bot.py", "--suite", "small", "--merge", *files)
        self.assertEqual(other.returncode, 4)
        self.assertIn("isn't a case of this command: name the same bots and options as for the parts", other.stderr)

    def replace_by_whole(self, file: Path) -> None:
        """Replaces the only result in the file of a part by that of the same case in the whole grade. Fails if they
        differ in more than the numbers of moves and denials, which depend on the time."""
        one, = json.loads(file.read_text(encoding="utf-8"))
        every = json.loads((self.room / "whole.json").read_text(encoding="utf-8"))
        own, = (case for case in every if case["daemon"] == one["daemon"])
        self.assertEqual({**one, "moves": 0, "denied": {}}, {**own, "moves": 0, "denied": {}})
        file.write_text(json.dumps([own]), encoding="utf-8")


if __name__ == "__main__":
    unittest.main()
