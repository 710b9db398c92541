"""`./class experiment`: its table, its chart, and a run that exceeds a bound, which is saved. A *row* of the table has
the numbers of moves, closed steps and rounds of a run. A run is determined by its setting (the network's family and
size, the daemon and the start) and its seed. The *daemon* chooses the nodes that move in each step, and the *start* is
the kind of registers at the beginning, such as `random`. A node is *privileged* if a rule can be applied at it."""
from __future__ import annotations

import csv
import json
import random
import re
import signal
import subprocess
import sys
import unittest
import unittest.mock
from dataclasses import replace
from functools import partial
from pathlib import Path
from xml.etree import ElementTree

from classroom.bots import experiment
from classroom.bots.measuring import Row, Setting, drawn, runs
from classroom.core import bounds, limits
from classroom.core.program import TOP, call
from classroom.core.rounds import Recovery
from classroom.core.tally import Bounds
from classroom.run.daemons import Daemon, heads, movers
from tests.classroom.help import LIMIT, InRoom, call_class

# The options of an experiment with 54 runs: three families, three sizes, three daemons, and two seeds.
TINY = ("--family", "path,star,random", "--nodes", "3..5", "--daemon", "central,synchronous,random:0.5", "--runs", "2")


def read(path: Path) -> list[dict[str, str]]:
    """Returns the rows of the table in a file, each with its cells by the columns' names."""
    with path.open(encoding="utf-8", newline="") as it:
        return list(csv.DictReader(it))


class Counts(unittest.TestCase):
    """Counted rounds, and the nodes that daemons choose."""

    def test_a_round_ends_when_each_node_has_moved_or_was_not_privileged(self) -> None:
        """A `Recovery` counts the moves, steps and rounds. It gets the nodes that are privileged at the beginning.
        `step` gets the nodes that moved, and those that are privileged after the step. The numbers at the end are the
        proved bounds for some networks, given by nodes and links."""
        one = Recovery([1, 2, 3])
        one.step([1], [2, 3])
        self.assertEqual(one.rounds, 0)
        one.step([2], [1, 3])  # Node 3 is privileged all the time.
        self.assertEqual(one.rounds, 0)
        one.step([3], [1])
        self.assertEqual(one.rounds, 1)
        one.step([1], [])
        self.assertEqual((one.moves, one.closes, one.rounds), (4, 4, 2))
        # A node that isn't privileged at some point has had its turn.
        other = Recovery([1, 2])
        other.step([1], [3])
        other.step([3], [])
        self.assertEqual((other.moves, other.closes, other.rounds), (2, 2, 2))
        told = [bounds.of(*sizes) for sizes in ((1, 0), (2, 1), (3, 2), (4, 3), (4, 4), (4, 6), (5, 10))]
        self.assertEqual([most.moves for most in told], [3, 8, 13, 18, 20, 20, 27])
        self.assertEqual([most.rounds for most in told], [1, 4, 5, 8, 8, 8, 9])
        self.assertEqual([most.events for most in told], [6, 16, 26, 36, 40, 40, 54])

    def test_each_daemon_chooses_as_many_nodes_as_its_definition_says(self) -> None:
        """A random daemon tosses coins, but chooses a node even if no coin shows heads."""
        chance = random.Random(1)
        self.assertEqual(movers(Daemon("synchronous"), [3, 1, 2], chance), [3, 1, 2])
        self.assertEqual({len(movers(Daemon("central"), [3, 1, 2], chance)) for _ in range(50)}, {1})
        self.assertEqual({node for _ in range(50) for node in movers(Daemon("central"), [3, 1, 2], chance)}, {1, 2, 3})
        counts = [len(heads(range(100), 0.3, chance)) for _ in range(100)]
        self.assertTrue(2500 < sum(counts) < 3500)  # 10,000 coins, each of which shows heads with the chance 0.3
        self.assertEqual(len(heads([7], 1e-9, chance)), 1)


class Runs(InRoom):
    """Runs of experiments with the program."""

    def test_a_run_has_the_same_row_alone_and_among_other_runs(self) -> None:
        setting = Setting("cycle", 7, Daemon("random", 0.5), "random")
        together = [row for row, _ in runs(setting, [3, 4, 5])]
        self.assertEqual([row for row, _ in runs(setting, [5])], together[2:])
        self.assertTrue(all(row.stable and row.moves > 0 for row in together))

    def test_under_timed_daemons_runs_become_stable_and_have_the_same_row_again(self) -> None:
        for how in (Daemon("every", 0.5), Daemon("when-idle", 0.2)):
            setting = Setting("cycle", 7, how, "random")
            rows = [row for row, _ in runs(setting, [3, 4])]
            self.assertEqual([row for row, _ in runs(setting, [4])], rows[1:])
            self.assertTrue(all(row.stable and row.rounds <= row.closes <= row.moves for row in rows), rows)

    def test_runs_are_the_same_if_a_new_program_is_started_when_events_are_used_up(self) -> None:
        """Each program may have only 250 events here, fewer than all runs need."""
        setting = Setting("path", 5, Daemon("central"), "random")
        wanted = runs(setting, list(range(6)))
        few = replace(limits.allowed(), events=250)
        with unittest.mock.patch.object(limits, "allowed", return_value=few):
            self.assertEqual(runs(setting, list(range(6))), wanted)

    def test_a_run_that_exceeds_a_bound_is_saved_with_its_lab_and_script(self) -> None:
        """The bound on rounds is taken as 0, so a run with a round exceeds it. The program grants all requests of the
        script, and they have the moves and steps of the run's row."""
        setting = Setting("cycle", 6, Daemon("synchronous"), "random")
        most = replace(bounds.of(6, 6), rounds=0)
        with unittest.mock.patch.object(bounds, "of", return_value=most):
            found = [(row, script) for row, script in runs(setting, [8, 9]) if row.rounds]
        row, script = found[-1]
        folder = experiment.save_counterexample(self.room / "runs.csv", row, script)
        answer = call("script", folder / "lab.toml", folder / "script", folder / "journal")
        replies = [json.loads(line.partition(" ")[2]) for line in answer.output.splitlines()]
        self.assertTrue(all("ok" in reply for reply in replies))
        self.assertEqual(sum(reply["ok"] == "close" for reply in replies), row.closes)
        self.assertEqual(sum(reply["ok"] == "move" for reply in replies), row.moves)
        self.assertTrue(replies[-1]["stable"])
        self.assertRegex(call("audit", folder / "lab.toml", folder / "journal").output, ", stable$")

    def test_a_clean_start_has_empty_registers(self) -> None:
        made = drawn(Setting("tree", 6, Daemon("central"), "clean"), 1)
        self.assertTrue(all(node.p is None and not node.m for node in made.nodes))


class Words(InRoom):
    """The subcommand."""

    def test_the_printed_table_has_a_line_for_each_number_of_nodes_and_names_the_run_closest_to_a_bound(self) -> None:
        """A line has the number of runs, and the median, maximum and bound of the moves and of the rounds."""
        rows = [Row("path", nodes, nodes - 1, "central", "random", seed, moves, moves, 1, True)
                for nodes, seed, moves in ((4, 1, 3), (4, 2, 9), (4, 3, 4), (8, 1, 20), (8, 2, 10))]
        with unittest.mock.patch.object(bounds, "of", side_effect=lambda nodes, links: Bounds(5 * nodes, 2 * nodes, 0)):
            lines = [line.split() for line in experiment.table(rows).splitlines()]
        self.assertEqual(lines[1], ["path", "central", "4", "3", "4", "9", "20", "1", "1", "8"])
        self.assertEqual(lines[2], ["path", "central", "8", "2", "15", "20", "40", "1", "1", "16"])
        self.assertIn("closest to the bounds", " ".join(lines[3]))
        self.assertIn("20 of at most 40 moves (8 nodes, seed 1)", " ".join(lines[3]))

    def test_the_table_and_the_chart_have_all_runs_also_after_an_interruption(self) -> None:
        """Each run has to be stable and within the bounds. Under the central daemon each closed step has one move, and
        under the synchronous daemon each closed step is a round."""
        table, plot = self.room / "runs.csv", self.room / "runs.svg"
        done = call_class("experiment", *TINY, "--csv", table, "--plot", plot)
        self.assertEqual(done.returncode, 0, done.stdout + done.stderr)
        self.assertIn("54 of 54 runs are done, all within the proved bounds", done.stdout)
        rows = read(table)
        self.assertEqual(list(rows[0]), "family,nodes,links,daemon,start,seed,moves,closes,rounds,stable".split(","))
        self.assertEqual(len(rows), 54)
        for row in rows:
            nodes, links = int(row["nodes"]), int(row["links"])
            self.assertLessEqual(int(row["moves"]), 3 * nodes + 2 * links)
            self.assertLessEqual(int(row["rounds"]), 2 * nodes)
            self.assertLessEqual(int(row["closes"]), int(row["moves"]))
            self.assertEqual(row["stable"], "true")
            if row["daemon"] == "central":
                self.assertEqual(row["closes"], row["moves"])
            if row["daemon"] == "synchronous":
                self.assertEqual(row["closes"], row["rounds"])
        picture = ElementTree.parse(plot).getroot()
        drawn_as = [each.get("class") for each in picture.iter("{http://www.w3.org/2000/svg}path")]
        for kind in ("bound", "bound loose", "bound least"):
            self.assertEqual(drawn_as.count(kind), 9 + 1, kind)  # one in each of the nine panels, and one in the legend
        titles = [each.text for each in picture.iter("{http://www.w3.org/2000/svg}text") if each.get("class") == "title"]
        self.assertEqual(titles, [f"{family}, {daemon}" for daemon in ("central", "random:0.5", "synchronous")
                                  for family in ("path", "random", "star")])
        # The table ends in the middle of a row, as after an interruption. The same command makes the missing runs.
        lines = table.read_text(encoding="utf-8").splitlines(keepends=True)
        table.write_text("".join(lines[:20]) + lines[20][:9], encoding="utf-8")
        again = call_class("experiment", *TINY, "--csv", table)
        self.assertIn(f"already in {table}, and not repeated: 19 runs\n", again.stdout)
        self.assertEqual(sorted(table.read_text(encoding="utf-8").splitlines()), sorted(line.rstrip("\n") for line in lines))

    def test_an_interrupt_keeps_the_rows_that_are_in_the_table(self) -> None:
        """The experiment has so many runs that it is still going on when its table has a row. Then it gets the signal
        of Ctrl-C."""
        table = self.room / "runs.csv"
        going = subprocess.Popen([sys.executable, TOP / "class", "experiment", "--nodes", "30", "--runs", "20000", "--csv", table],
                                 stdout=subprocess.PIPE, stderr=subprocess.STDOUT, text=True,
                                 # The signal isn't ignored there, even if it is in this process.
                                 preexec_fn=partial(signal.signal, signal.SIGINT, signal.SIG_DFL))
        while not table.exists() or table.read_text(encoding="utf-8").count("\n") < 2:
            self.assertIsNone(going.poll())
        going.send_signal(signal.SIGINT)
        output, _ = going.communicate(timeout=LIMIT)
        self.assertEqual(going.returncode, 4, output)
        self.assertIn("interrupted: run the same command again to continue", output)
        self.assertLess(0, len(read(table)))

    def test_wrong_arguments_get_an_error_line_and_another_file_is_not_changed(self) -> None:
        other = self.file("other.csv", "name,mark\nana,1\n")
        rows: tuple[tuple[tuple[str | Path, ...], str], ...] = (
            (("--csv", other), "this file isn't a table of class experiment, so it isn't changed"),
            (("--daemon", "by-hand"), "--daemon by-hand: in an experiment nobody closes steps by hand; name another daemon"),
            (("--nodes", "9..3"), "9..3: write a number of nodes, A..B or A..B/STEP, with numbers from 1 to 256"),
            (("--family", "ring"), "--family ring: there is no such family of networks"),
        )
        for given, why in rows:
            done = call_class("experiment", "--csv", self.room / "runs.csv", *given)
            self.assertEqual(done.returncode, 1)
            self.assertIn(why, done.stderr)
        self.assertEqual(other.read_text(), "name,mark\nana,1\n")


class InTheReadme(InRoom):
    """The chart that README.md shows."""

    def test_the_command_in_the_readme_draws_its_chart_byte_for_byte(self) -> None:
        shown = re.search(r"(?m)^    ./class (experiment .*) --plot runs.svg$", (TOP / "README.md").read_text(encoding="utf-8"))
        assert shown is not None
        drawn_now, table = self.room / "runs.svg", self.room / "runs.csv"
        done = call_class(*shown[1].split(), "--csv", table, "--plot", drawn_now)
        self.assertEqual(done.returncode, 0, done.stderr)
        self.assertEqual(drawn_now.read_bytes(), (TOP / "docs/experiment.svg").read_bytes())


class Forms(unittest.TestCase):
    """Reading and writing rows of the table."""

    def test_a_row_is_written_as_a_line_from_which_it_can_be_read(self) -> None:
        row = Row("random:6:9", 6, 9, "random:0.5", "hurt", 3, 12, 9, 4, True)
        line = experiment.line_of(row)
        self.assertEqual(line, "random:6:9,6,9,random:0.5,hurt,3,12,9,4,true\n")
        self.assertEqual(experiment.row_of(dict(zip(experiment.COLUMNS, line.strip().split(",")))), row)


if __name__ == "__main__":
    unittest.main()
