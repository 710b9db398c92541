"""`./check` as its user calls it, over parts that are scripts."""
from __future__ import annotations

import os
import re
import signal
import unittest
from collections.abc import Callable

from tools.check.processes import processes
from tests.check.tree import LIMIT, WELL, InTree, is_there, part

# Starts processes in this session and in a new one. One of them ignores the signals to end. Then writes a file, creates
# another file to show that it has begun, and never ends.
GOES_ON = """
setsid sleep 1000 & echo $! >> "$ROOM/pids"
sh -c 'trap "" TERM HUP INT; while :; do sleep 1000; done' & echo $! >> "$ROOM/pids"
(sleep 1000 & echo $! >> "$ROOM/pids")
echo $$ >> "$ROOM/pids"
echo "a file" > "$TMPDIR/file"
touch "$ROOM/begun"
while :; do sleep 1000; done
"""
# A part that waits until the test lets it end.
WAITS = 'touch "$ROOM/begun"; until [ -e "$ROOM/go" ] || [ ! -d "$ROOM" ]; do sleep 0.05; done; echo 1 test'


class Words(InTree):
    """Arguments, exit statuses and last lines."""

    def setUp(self) -> None:
        """Makes a tree whose quick parts are `one` and `two`."""
        super().setUp()
        self.stand_in(part("one", WELL), part("two", "echo 2 documents"))

    def test_help_names_the_subcommands_and_the_parts(self) -> None:
        for words in (["--help"], ["-h"], ["quick", "--help"]):
            done = self.check(*words)
            self.assertEqual((done.returncode, done.stderr), (0, ""))
        for word in ("quick", "proofs", "wrong", "minutes", "N passed, M failed"):
            self.assertIn(word, " ".join(self.check("--help").stdout.split()))
        self.assertIn("one, two", self.check("quick", "--help").stdout)

    def test_wrong_arguments_are_refused_with_status_2(self) -> None:
        for words, why in (
            (["slow"], "slow"), (["--quick"], "--quick"), (["quick", "three"], "there is no part three; there are: one, two"),
            (["proofs", "one", "four"], "there is no crate four; there are: one, two"), (["wrong", "four"], "there is no crate four"),
        ):
            done = self.check(*words)
            self.assertEqual((done.returncode, done.stdout), (2, ""), words)
            self.assertIn(why, done.stderr)

    def test_check_runs_the_proofs_first_and_then_all_parts(self) -> None:
        """The proofs count as 5 tests, the wrong bodies as 7, and each of the two quick parts as one."""
        for program in ("check", ".ci/run"):
            done = self.check(program=program)
            lines = done.stdout.splitlines()
            self.assertEqual((done.returncode, done.stderr, lines[-1]), (0, "", "14 passed, 0 failed"))
            self.assertRegex(lines[0], r"^check: about \d+ minutes on \d+ processors \(proofs [\d.]+, scripts [\d.]+, wrong [\d.]+\)$")
            told = [re.sub(r" +\d+ s ", "", line) for line in lines if line.startswith("ok ")]
            self.assertEqual(sorted(told), [
                "ok one: 3 calls as wanted", "ok proofs: 5 passed, 0 failed", "ok two: 2 documents", "ok wrong: 7 passed, 0 failed",
            ])
            self.assertLess(told.index("ok proofs: 5 passed, 0 failed"), told.index("ok two: 2 documents"))
            self.assertRegex(lines[-2], r"^processor minutes in all: \d")
            self.assertNotIn("left out", done.stdout)

    def test_a_subcommand_runs_only_its_parts_and_names_what_is_left_out(self) -> None:
        """`quick` takes names of parts, and `proofs` and `wrong` take names of crates."""
        done = self.check("quick")
        self.assertEqual((done.returncode, done.stdout.splitlines()[-1]), (0, "2 passed, 0 failed"))
        self.assertRegex(done.stdout, r"(?m)^left out: proofs .*: \./check proofs$")
        self.assertRegex(done.stdout, r"(?m)^left out: wrong bodies: \./check wrong$")
        done = self.check("quick", "two")
        self.assertEqual((done.returncode, done.stdout.splitlines()[-1]), (0, "1 passed, 0 failed"))
        self.stand_in(proofs='echo "rt: $# $*"; echo "$* proved"; echo 2 passed, 0 failed', wrong='echo "$* tried"; echo 3 passed, 0 failed')
        done = self.check("proofs", "one", "two")
        self.assertEqual((done.returncode, done.stdout.splitlines()[-1]), (0, "2 passed, 0 failed"))
        self.assertIn("  rt: 2 one two\n", done.stdout)
        self.assertNotIn("one two proved", done.stdout)
        self.assertEqual(self.check("wrong", "two").stdout.splitlines()[-1], "3 passed, 0 failed")


class Outcomes(InTree):
    """What makes a check fail."""

    def check_fails_with(self, line: str) -> str:
        """Runs a check with a part that succeeds and a part that is the shell line `line`. Checks that this part, and
        so the whole check, fails. Returns what the check prints."""
        self.stand_in(part("well", WELL), part("other", line))
        done = self.check("quick")
        self.assertEqual((done.returncode, done.stdout.splitlines()[-1]), (1, "1 passed, 1 failed"), line)
        self.assertRegex(done.stdout, r"(?m)^FAILED +\d+ s  other: ")
        return done.stdout

    def test_a_part_fails_by_its_status_a_signal_or_a_failed_test(self) -> None:
        said = self.check_fails_with("echo the reason why; echo 12 calls; exit 1")
        self.assertIn("the reason why\n", said)
        self.check_fails_with("exit 1")
        self.check_fails_with("echo 12 calls; kill -9 $$")
        self.check_fails_with("echo 0 passed, 1 failed; exit 1")

    def test_a_part_fails_if_it_runs_no_test(self) -> None:
        for line in (":", "echo", "echo all is well", "echo 0 calls", "echo 0 passed, 0 failed",
                     "echo 'Ran 0 tests in 0.001s'; echo; echo OK",
                     "echo 'Ran 2 tests in 0.001s'; echo; echo 'OK (skipped=2)'"):
            self.assertIn("no test ran", self.check_fails_with(line))

    def test_counts_are_added(self) -> None:
        self.stand_in(part("well", WELL), proofs="echo 40 passed, 0 failed", wrong="echo 20 passed, 2 failed; exit 1")
        done = self.check()
        self.assertEqual((done.returncode, done.stdout.splitlines()[-1]), (1, "61 passed, 2 failed"))

    def test_after_proofs_that_fail_nothing_else_is_done(self) -> None:
        self.stand_in(part("well", WELL), proofs="echo refused; echo 40 passed, 3 failed; exit 1")
        done = self.check()
        self.assertEqual((done.returncode, done.stdout.splitlines()[-1]), (1, "40 passed, 3 failed"))
        self.assertIn("refused\n", done.stdout)
        self.assertIn("not done, since the proofs failed: well, wrong\n", done.stdout)

    def test_a_missing_tool_is_named_with_its_debian_package(self) -> None:
        """The parts that need the tool are left out. A part that `likes` it runs, without those of its tests that need
        it. With the variable CI nothing may be left out, so the check tries to install the package (as root, here by a
        false `apt-get`), and then fails. The check also fails if no part is left."""
        self.stand_in(part("well", WELL), part("needy", WELL, needs=("nothing",)), part("choosy", WELL, likes=("nothing",)))
        bin = self.room / "bin"
        bin.mkdir()
        (bin / "apt-get").write_text('#!/bin/sh\necho "$*" >> "$ROOM/asked"\nexit 0\n', encoding="utf-8")
        (bin / "apt-get").chmod(0o755)
        path = f"{bin}:{os.environ['PATH']}"
        named = r"needy, choosy: needs a thing that nobody has \(Debian's no-such-package\)$"
        done = self.check("quick", PATH=path)
        self.assertEqual((done.returncode, done.stdout.splitlines()[-1]), (0, "2 passed, 0 failed"), done.stdout)
        self.assertRegex(done.stdout, "(?m)^left out: " + named)
        self.assertFalse((self.room / "asked").exists())
        done = self.check("quick", CI="true", PATH=path)
        self.assertEqual((done.returncode, done.stdout.splitlines()[-1]), (1, "2 passed, 2 failed"), done.stdout)
        self.assertRegex(done.stdout, "(?m)^FAILED " + named)
        if os.geteuid() == 0:
            self.assertRegex((self.room / "asked").read_text(encoding="utf-8"), r"(?m) update\n.* install no-such-package$")
        self.stand_in(part("needy", WELL, needs=("nothing",)))
        done = self.check("quick")
        self.assertEqual((done.returncode, done.stdout.splitlines()[-1]), (1, "0 passed, 1 failed"))

    def test_a_part_fails_if_a_need_is_missing_that_is_a_must(self) -> None:
        """If another need is missing, its parts are only left out. The need `must`, which is always missing here, makes
        its parts fail, even without the variable CI."""
        self.stand_in(part("well", WELL), part("one", WELL, needs=("must",)), part("two", WELL, needs=("must",)))
        done = self.check("quick")
        self.assertEqual((done.returncode, done.stdout.splitlines()[-1]), (1, "1 passed, 2 failed"))
        self.assertRegex(done.stdout, r"(?m)^FAILED one, two: needs what a check is of$")

    def test_a_process_that_a_part_leaves_running_is_ended_with_the_check(self) -> None:
        self.stand_in(part("well", 'setsid sleep 1000 > /dev/null 2>&1 & echo $! > "$ROOM/pid"; echo 1 call'))
        self.assertEqual(self.check("quick").returncode, 0)
        self.assertFalse(is_there(int((self.room / "pid").read_text(encoding="utf-8"))))


class Beside(InTree):
    """Wrong bodies beside the proofs. They get the names of proved crates on their standard input."""

    def input_of_wrong(self, proofs: str, last: str = "echo 7 passed, 0 failed") -> str:
        """Runs a check in which the proofs are the shell line `proofs` and the wrong bodies end with the line `last`.
        Keeps what the check prints in `said`. Returns the standard input of the wrong bodies."""
        self.stand_in(part("well", WELL), wrong=f'touch "$ROOM/begun"; cat > "$ROOM/told"; {last}', proofs=proofs)
        self.said = self.check().stdout
        return (self.room / "told").read_text(encoding="utf-8")

    def test_each_proved_crate_is_passed_to_the_wrong_bodies_at_once(self) -> None:
        """The proofs wait until the first crate has been passed on. A crate that isn't proved isn't passed on."""
        told = self.input_of_wrong("""
            echo "rt: one proved"; until [ -s "$ROOM/told" ]; do sleep 0.05; done
            echo "rt: one: its tests are proved"; echo "== two"; echo "rt: two is kept: an earlier run proved it"; echo "rt: three NOT PROVED"
            echo 5 passed, 0 failed
        """)
        self.assertEqual((told, self.said.splitlines()[-1]), ("one\ntwo\n", "13 passed, 0 failed"))

    def test_if_the_wrong_bodies_end_early_only_they_fail(self) -> None:
        """Nobody reads the names of the crates that are proved after their end."""
        self.stand_in(wrong='touch "$ROOM/begun"; exit 1', proofs="""
            until [ -e "$ROOM/begun" ]; do sleep 0.05; done; sleep 1
            for it in 1 2 3; do echo "rt: one proved"; sleep 0.3; done; echo 5 passed, 0 failed
        """)
        done = self.check()
        self.assertEqual((done.returncode, done.stdout.splitlines()[-1]), (1, "5 passed, 1 failed"), done.stdout)

    def test_if_the_proofs_fail_the_wrong_bodies_are_ended(self) -> None:
        self.stand_in(part("well", WELL), wrong=GOES_ON, proofs='until [ -e "$ROOM/begun" ]; do sleep 0.05; done; echo 1 passed, 1 failed; exit 1')
        done = self.check()
        self.assertEqual((done.returncode, done.stdout.splitlines()[-1]), (1, "1 passed, 1 failed"))
        pids = [int(pid) for pid in (self.room / "pids").read_text(encoding="utf-8").split()]
        self.assertEqual([pid for pid in pids if is_there(pid)], [])

    def test_a_signal_to_the_check_ends_the_proofs_and_the_wrong_bodies(self) -> None:
        self.stand_in(part("well", WELL), wrong=GOES_ON, proofs="sleep 1000")
        going = self.start()
        going.send_signal(signal.SIGTERM)
        said, _ = going.communicate(timeout=LIMIT)
        self.assertRegex(said, "check: ended by SIGTERM, in proofs, wrong\n")
        self.assertEqual(going.returncode, 128 + signal.SIGTERM)
        self.check_nothing_left()


class Ends(InTree):
    """A check that is ended, and two at once."""

    def check_ended_by(self, number: signal.Signals, whole_group: bool) -> None:
        """Sends this signal to the process of a running check, or to its group if `whole_group` is set. Checks the
        status and the last lines of the check, and that nothing is left of it."""
        for name in ("begun", "pids"):
            (self.room / name).unlink(missing_ok=True)
        self.stand_in(part("well", WELL), part("on", GOES_ON))
        going = self.start("quick")
        pids = [int(pid) for pid in (self.room / "pids").read_text(encoding="utf-8").split()]
        self.assertEqual([pid for pid in pids if not is_there(pid)], [])
        (os.killpg if whole_group else os.kill)(going.pid, number)
        said, _ = going.communicate(timeout=LIMIT)
        self.assertEqual(going.returncode, 128 + number, said)
        self.assertRegex(said.splitlines()[-1], r"^[01] passed, [1-9]\d* failed$")
        self.assertRegex(said, f"check: ended by {number.name}, in (well, )?on\n")
        self.assertEqual([pid for pid in pids if is_there(pid)], [])
        self.check_nothing_left()

    def test_a_signal_to_its_process_ends_a_check_and_leaves_nothing(self) -> None:
        for number in (signal.SIGTERM, signal.SIGINT, signal.SIGHUP):
            self.check_ended_by(number, False)

    def test_a_signal_to_its_group_ends_a_check_and_leaves_nothing(self) -> None:
        self.check_ended_by(signal.SIGTERM, True)
        self.check_ended_by(signal.SIGINT, True)

    def test_a_check_whose_output_nobody_reads_ends_with_status_1(self) -> None:
        """The first part waits until nobody can read the check's output any longer. The check then can't print a
        result."""
        self.stand_in(part("waits", WAITS), part("well", WELL))
        going = self.start("quick")
        assert going.stdout is not None
        going.stdout.close()
        (self.room / "go").touch()
        self.assertEqual(going.wait(LIMIT), 1)
        self.check_nothing_left()

    def test_a_second_check_in_the_same_tree_is_refused_with_status_3(self) -> None:
        """The first check waits meanwhile, and passes afterwards. Then a check can run again."""
        self.stand_in(part("waits", WAITS))
        going = self.start("quick")
        for words in ("quick", "proofs", ""):
            second = self.check_beside(*words.split())
            self.assertEqual((second.returncode, second.stdout), (3, ""))
            self.assertIn("another ./check runs in this tree", second.stderr)
        (self.room / "go").touch()
        said, _ = going.communicate(timeout=LIMIT)
        self.assertEqual((going.returncode, said.splitlines()[-1]), (0, "1 passed, 0 failed"))
        self.assertEqual(self.check("quick").returncode, 0)

    def kill_check(self, kill: Callable[[int], None]) -> int:
        """Starts a check, and calls `kill`, which kills a process or a group, with the number of the check's process.
        Checks that nothing is left of the check, and that the next one passes. Returns the status of the killed
        check."""
        for name in ("begun", "pids"):
            (self.room / name).unlink(missing_ok=True)
        self.stand_in(part("on", GOES_ON))
        going = self.start("quick")
        pids = [int(pid) for pid in (self.room / "pids").read_text(encoding="utf-8").split()]
        kill(going.pid)
        said, _ = going.communicate(timeout=LIMIT)  # the pipe ends with the last process of the check
        self.assertEqual([pid for pid in pids if is_there(pid)], [], said)
        self.check_nothing_left()
        self.stand_in(part("well", WELL))
        self.assertEqual(self.check_beside("quick").returncode, 0)
        return going.returncode

    def test_nothing_is_left_of_a_check_that_was_killed(self) -> None:
        self.assertEqual(self.kill_check(lambda pid: os.kill(pid, signal.SIGKILL)), -signal.SIGKILL)
        self.assertEqual(self.kill_check(lambda pid: os.killpg(pid, signal.SIGKILL)), -signal.SIGKILL)

    def test_nothing_is_left_of_a_check_whose_child_was_killed(self) -> None:
        """The process of the check watches a child, which runs the parts."""
        def kill_child_of(pid: int) -> None:
            """Kills the only child of a process."""
            children = [below for below, it in processes().items() if it.parent == pid]
            self.assertEqual(len(children), 1)
            os.kill(children[0], signal.SIGKILL)

        self.assertEqual(self.kill_check(kill_child_of), 128 + signal.SIGKILL)


if __name__ == "__main__":
    unittest.main()
