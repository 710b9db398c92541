"""`./class grade`: correct bots pass each case, bots with known faults fail the right case, and no process is left. A
*case* is a lab that a bot plays, with a daemon and a seed. The *daemon* decides when a step is closed, and which moves
are applied then. A *plan* describes cases that differ only in their daemons and seeds. Each bot has a *keeper*, the
process that starts it and enforces its limits."""
from __future__ import annotations

import argparse
import concurrent.futures
import json
import os
import shutil
import signal
import subprocess
import sys
import tempfile
import threading
import time
import unittest
import unittest.mock
from pathlib import Path
from xml.etree import ElementTree

from classroom.bots import grade, graded, suites, troubles
from classroom.bots.attempt import Limits
from classroom.bots.bots import Bot, end_in_words
from classroom.bots.trial import Result, try_bot
from classroom.core.lab import read
from classroom.core.processes import parents
from classroom.core.program import TOP, call
from classroom.run.daemons import Daemon
from tests.classroom.help import CYCLE, EXAMPLES, LIMIT, InRoom, call_class, wait_until
from tests.classroom.leaving import Leaving, words_of

# The limit of each wait for a bot that is found by what it doesn't do, in seconds. A slow machine starts a bot in a
# part of this time.
SECONDS = 40
# Each fault with the plan of the case that finds it, and a pattern of the reason that the result has.
OWN = {
    "never-updates": ("path-4", rf"didn't become stable within {SECONDS} seconds: it waits for update at node \d \(bot\)"),
    "marries-anyone": ("alone-path-4", r"move at node \d+ by marriage with \d+ is denied as guard, clause 4: .*; (update|seduction|abandonment) would be"),
    "asks-always": ("alone-cycle-4", r"asks for a move of node \d with `at` 1\d\d\d, but none of its looks at node \d had this `at`"),
    "floods": ("path-4", "the bot floods the server: "),
    "hangs": ("path-4", rf"didn't become stable within {SECONDS} seconds: it waits for "),
    "ignores-faults": ("complete-4", rf"the bot didn't ask for \w+ at node \d+, which is privileged, within {SECONDS} seconds; the bot sent its last line "),
    "needs-order": ("alone-path-4", rf"didn't become stable within {SECONDS} seconds: it waits for "),
    "sulks": ("random-6", rf"the bot's connection was closed, and within {SECONDS} seconds the bot didn't connect again"),
    "binary": ("path-4", r"^a line is refused as malformed: the line isn't UTF-8 at byte 1; the line is \\x80"),
    "quotes-numbers": ("path-4", r"^a line is refused as malformed: node is a string, not a whole number \(write \d, without quotes\); "
                                 r'the line is {"do": "look", "node": "\d"}$'),
    "never-ends-a-line": ("path-4", rf"^no hello of the bot was granted within {SECONDS} seconds; the bot sent a line without a newline at its end, "),
    "forks": ("path-4", "the bot ended by itself, with status 0"),
    "bombs": ("path-4", "the bot was ended: it had more than 64 processes"),
    "eats-memory": ("path-4", "the bot was ended: it used more than 200 megabytes of memory"),
    "computes": ("path-4", rf"the bot used more than {LIMIT} seconds of processor time, the limit of --timeout, and was ended"),
    "pretends": ("path-4", rf"no hello of the bot was granted within {SECONDS} seconds; the bot never connected to port \d+$"),
}
PLANS = {plan.name: plan for plan in suites.SMALL}


class Ended(Exception):
    """A test's stand-in for the end of its process."""


def try_case(bot: Bot, plan: str, limits: Limits, room: Path) -> Result:
    """Tries a bot in the case of a plan of the suite `small`, with the seed 1 and the plan's daemon. `limits` are those
    of the time and memory of the bot. Writes the record of the case below the folder `room`. Returns the result."""
    it = PLANS[plan]
    with tempfile.TemporaryDirectory() as own:
        found = try_bot(bot, suites.planned(it, 1, it.daemon), limits, Path(own), room / bot.name / plan, threading.Event())
    assert found is not None
    return found


def children(process: int) -> list[int]:
    """Returns the numbers of the processes that a process started."""
    return sorted(child for child, parent in parents().items() if parent == process)


def end(process: int) -> None:
    """Kills a process, if it is still there."""
    try:
        os.kill(process, signal.SIGKILL)
    except ProcessLookupError:
        pass


class Faults(Leaving):
    """Bots with known faults."""

    def bot(self, fault: str) -> Bot:
        """Returns the bot of `faulty.py` with this fault. The fault `right` is none: the bot is correct."""
        return Bot.of(f"{sys.executable} {self.faulty} {fault}")

    def test_each_bot_fails_the_case_that_finds_its_fault_for_the_right_reason(self) -> None:
        """A bot whose fault is found by what it does has much time for that."""
        # A bot is watched for longer while its class is stable, since a slow machine may halt it for a while.
        with unittest.mock.patch.object(troubles, "QUIET", 3.0), concurrent.futures.ThreadPoolExecutor(len(OWN)) as pool:
            going = {fault: pool.submit(try_case, self.bot(fault), plan, Limits(SECONDS if f"{SECONDS} seconds" in why else LIMIT, 200), self.room)
                     for fault, (plan, why) in OWN.items()}
        for fault, (_, why) in OWN.items():
            result = going[fault].result()
            self.assertFalse(result.passed, fault)
            self.assertRegex(result.why, why, fault)
        self.check_nothing_left()

    def test_a_correct_bot_passes_the_same_cases(self) -> None:
        """The record of each case has a journal that passes the audit, a page, and the lines and replies."""
        plans = sorted({plan for plan, _ in OWN.values()})
        with concurrent.futures.ThreadPoolExecutor(len(plans)) as pool:
            for result in pool.map(lambda plan: try_case(self.bot("right"), plan, Limits(60), self.room), plans):
                self.assertTrue(result.passed, result)
                self.assertEqual(result.why, "")
                self.assertLessEqual(result.denied.keys(), {"stale", "chosen", "memory"})
                folder = self.room / "python3 faulty.py right" / result.lab
                answer = call("audit", folder / "lab.toml", folder / "journal")
                self.assertRegex(answer.output, "^ok: .*, stable$")
                self.assertIn("</html>", (folder / "run.html").read_text(encoding="utf-8"))
                self.assertIn('"ok":"hello","who":"bot"', (folder / "conversation.txt").read_text(encoding="utf-8"))
                self.assertLess(0, result.moves)


class Cases(unittest.TestCase):
    """The contents of cases."""

    def test_a_seed_gives_the_same_labs_but_for_the_keys(self) -> None:
        """Another seed gives another lab if the registers are random. The suite `full` has at least 60 cases with
        different names."""
        for plan in suites.FULL:
            one, again, other = (suites.planned(plan, seed, plan.daemon).made for seed in (1, 1, 2))
            self.assertEqual((one.nodes, one.links), (again.nodes, again.links))
            self.assertNotEqual(one.students, again.students)
            if plan.start == "random":
                self.assertNotEqual((one.nodes, one.links), (other.nodes, other.links))
        names = [suites.planned(plan, 1, plan.daemon).name() for plan in suites.FULL]
        self.assertEqual(len(set(names)), len(names))
        self.assertLessEqual(60, len(names))

    def test_a_daemon_is_read_from_the_word_that_spells_it_and_other_words_are_refused(self) -> None:
        for word in ("central", "synchronous", "random:0.25", "every:2", "when-idle:0.5", "by-hand"):
            self.assertEqual(Daemon.of(word).spelled(), word)
        for word in ("", "fair", "central:1", "random:0", "random:1.5", "every:x", "when-idle:-1"):
            with self.assertRaisesRegex(ValueError, "isn't a daemon. The daemons are: central"):
                Daemon.of(word)


class Commands(InRoom):
    """The bots that arguments name, and how bots end."""

    def test_the_name_of_a_file_means_this_file_with_and_without_a_path(self) -> None:
        """A file that can be executed and names its interpreter in its first line runs by itself. Any other file in
        Python is run by Python, and a file of no known kind, or a missing one, is an error of the bot."""
        before = Path.cwd()
        self.addCleanup(os.chdir, before)
        os.chdir(self.room)
        room = Path.cwd()
        told, untold = "#!/usr/bin/env python3\n", "print()\n"  # texts that name their interpreter and don't
        for name, text, mode in (("told.py", told, 0o755), ("untold.py", untold, 0o755), ("plain.py", told, 0o644), ("run", told, 0o755)):
            self.file(name, text).chmod(mode)
        by_python = str(Path(sys.executable).absolute())
        rows = ((("told.py", "./told.py", str(room / "told.py")), (str(room / "told.py"),)), (("run", "./run"), (str(room / "run"),)),
                (("run 3", "./run 3"), (str(room / "run"), "3")), (("untold.py",), (by_python, str(room / "untold.py"))),
                (("plain.py", "./plain.py"), (by_python, str(room / "plain.py"))))
        for names, expected in rows:
            for name in names:
                bot = Bot.of(name)
                self.assertEqual((bot.words, bot.fault), (expected, ""), name)
        self.file("data", "").chmod(0o644)
        self.assertIn("data: this file can't be run; make it executable", Bot.of("data").fault)
        for name in ("none.py", "./none.py"):
            self.assertIn("there is no such program; a BOT is a command", Bot.of(name).fault)

    def test_how_a_bot_ended_is_said_in_words(self) -> None:
        """The keeper reports `ended` with a status, or with the negative number of a signal, or `killed` with a reason.
        The limit of processor time is in seconds, or None if there is none."""
        by_system = "which the system sends if a program uses far too much processor time or memory"
        rows = (("ended 3", 20.0, "ended by itself, with status 3"), ("killed it had more than 64 processes", 20.0, "was ended: it had more than 64 processes"),
                ("ended -24", 20.0, "used more than 20 seconds of processor time, the limit of --timeout, and was ended"),
                ("ended -25", 20.0, "made a file of more than 16 megabytes, and was ended"), ("ended -24", None, "was ended by the signal SIGXCPU"),
                ("ended -9", 20.0, f"was ended by the signal SIGKILL, {by_system}"), ("ended -11", 20.0, "was ended by the signal SIGSEGV"),
                ("ended -44", 20.0, "was ended by the signal 44"))
        for how, seconds, told in rows:
            self.assertEqual(end_in_words(how, seconds), told)


class Kept(InRoom):
    """The files with the results, if writing them takes long."""

    def setUp(self) -> None:
        """Makes a `Written` for a bot in three cases. Each of its writes counts as so slow that it writes only the
        first result at once, and keeps further ones for later. Replaces the end of this process by `Ended`, and
        restores the handlers of signals at the end."""
        super().setUp()
        self.table = self.room / "cases.json"
        made, bots = read(CYCLE), [Bot.of("python3 bot.py")]
        cases = [suites.Case("cycle", made, "gus", Daemon("central"), seed, ()) for seed in (1, 2, 3)]
        self.results = [Result(bots[0].name, case.lab, case.daemon.spelled(), case.seed, True, "") for case in cases]
        self.written = grade.Written(argparse.Namespace(json=str(self.table), junit=None, gradescope=None), bots, cases, [])
        for number in (signal.SIGINT, signal.SIGTERM, signal.SIGHUP):
            self.addCleanup(signal.signal, number, signal.getsignal(number))
        for name, value in (("LONG", -1.0), ("SPARING", 1e9), ("end_at_once", unittest.mock.Mock(side_effect=Ended))):
            patch = unittest.mock.patch.object(grade, name, value)
            patch.start()
            self.addCleanup(patch.stop)

    def seeds(self) -> list[int]:
        """Returns the seeds of the results in the file."""
        return [each["seed"] for each in json.loads(self.table.read_text(encoding="utf-8"))]

    def test_a_second_interrupt_writes_the_results_that_the_file_lacks(self) -> None:
        """Only the first result is written at once. The first interrupt asks the grade to stop, and writes nothing."""
        stop = grade.catch_interrupts(self.written)
        for result in self.results:
            self.written.add(result)
        self.assertEqual(self.seeds(), [1])
        signal.raise_signal(signal.SIGINT)
        self.assertTrue(stop.is_set())
        self.assertEqual(self.seeds(), [1])
        with self.assertRaises(Ended):
            signal.raise_signal(signal.SIGINT)
        self.assertEqual(self.seeds(), [1, 2, 3])

    def test_an_interrupt_during_a_write_loses_no_result_and_the_next_one_ends_the_grade(self) -> None:
        """The first two interrupts come while the results are sorted before a write. The handler of the second one
        sorts and writes them itself. If a third interrupt comes while this handler sorts, the grade ends without
        writing."""
        for interrupts, expected in ((2, [1, 2, 3]), (3, [1])):
            with self.subTest(interrupts=interrupts):
                grade.catch_interrupts(self.written)
                self.written.results.clear()
                self.written.next = 0.0
                for result in self.results:
                    self.written.add(result)
                left = iter([signal.SIGINT] * interrupts)

                def name(result: Result) -> str:
                    """Returns the name of the result's case, after a signal to this process if one is left."""
                    if number := next(left, None):
                        signal.raise_signal(number)
                    return f"{result.lab} {result.daemon} {result.seed}"

                with unittest.mock.patch.object(graded, "case_name", name), self.assertRaises(Ended):
                    self.written.write()
                self.assertEqual(self.seeds(), expected)

    def test_a_file_that_can_not_be_written_at_the_end_has_an_error_line(self) -> None:
        self.written.files["json"] = self.room / "none/cases.json"
        with unittest.mock.patch.object(grade, "STDERR", os.open(self.room / "lines", os.O_CREAT | os.O_WRONLY)):
            self.written.complete()
            os.close(grade.STDERR)
        self.assertIn("none/cases.json: No such file or directory; nothing was written to this file", (self.room / "lines").read_text(encoding="utf-8"))


class Calls(Leaving):
    """The subcommand, called with bots."""

    @unittest.skipUnless(shutil.which("java"), "no java: Bot.java wasn't graded")
    def test_two_example_bots_pass_all_cases_of_the_suite_small(self) -> None:
        """The results are also written in three forms: JSON, JUnit and Gradescope."""
        files = {form: self.room / form for form in ("json", "junit", "gradescope")}
        done = call_class("grade", EXAMPLES / "bot.py", EXAMPLES / "Bot.java", "--timeout", "120", "--into", self.room / "grades",
                          *(word for form, file in files.items() for word in (f"--{form}", str(file))))
        self.assertEqual(done.returncode, 0, done.stdout + done.stderr)
        self.assertIn("bot.py: 12 of 12 cases passed\nBot.java: 12 of 12 cases passed\n", done.stdout)
        cases = json.loads(files["json"].read_text(encoding="utf-8"))
        self.assertEqual(len(cases), 24)
        self.assertEqual(cases[0].keys(), {"bot", "lab", "daemon", "seed", "passed", "why", "moves", "denied"})
        self.assertEqual([each["bot"] for each in cases], ["bot.py"] * 12 + ["Bot.java"] * 12)
        self.assertEqual([each["lab"] for each in cases], [plan.name for plan in suites.SMALL] * 2)
        suite = ElementTree.parse(files["junit"]).getroot()
        self.assertEqual([(each.get("name"), each.get("failures")) for each in suite], [("bot.py", "0"), ("Bot.java", "0")])
        tests = json.loads(files["gradescope"].read_text(encoding="utf-8"))["tests"]
        self.assertEqual(sum(each["score"] for each in tests), 24)

    def test_labs_of_the_teacher_are_used_and_a_wrong_lab_or_missing_bot_gets_a_line(self) -> None:
        """The missing bot fails in both correct labs, and the other bot passes in both."""
        labs = self.room / "labs"
        labs.mkdir()
        shutil.copy(EXAMPLES / "path.toml", labs)
        shutil.copy(EXAMPLES / "shared.toml", labs)
        (labs / "none.toml").write_text("events = 3\n")
        table = self.room / "cases.json"
        done = call_class("grade", "no-such-bot", f"python3 {self.faulty} right", "--labs", labs, "--daemon", "synchronous", "--timeout", "60",
                          "--into", self.room / "grades", "--json", table)
        self.assertEqual(done.returncode, 5, done.stdout + done.stderr)
        self.assertRegex(done.stdout, r"(?m)^class: .*none.toml: the lab is refused \(lab: .* is missing\)")
        self.assertRegex(done.stdout, r"(?m)^class: no-such-bot: there is no such program")
        self.assertIn("no-such-bot: not tried: the bot can't be started\npython3 faulty.py right: 2 of 2 cases passed\n", done.stdout)
        self.assertEqual([each["passed"] for each in json.loads(table.read_text(encoding="utf-8"))], [False, False, True, True])

    def test_bots_that_can_not_be_started_are_not_tried_but_are_in_the_table(self) -> None:
        """One doesn't exist, and the other is a file that can be executed but has no program of this machine."""
        table = self.room / "cases.json"
        done = call_class("grade", "no-such-bot", "--into", self.room / "grades", "--json", table)
        self.assertEqual(done.returncode, 5, done.stdout + done.stderr)
        self.assertRegex(done.stdout, r"^class: no-such-bot: there is no such program.*\nno-such-bot: not tried: the bot can't be started\n$")
        self.assertFalse((self.room / "grades").exists())
        self.assertEqual(len(json.loads(table.read_text(encoding="utf-8"))), 12)
        foreign = self.file("foreign", "no program of this machine's\n")
        foreign.chmod(0o755)
        done = call_class("grade", foreign, "--into", self.room / "grades")
        self.assertEqual(done.returncode, 5, done.stdout + done.stderr)
        self.assertEqual(done.stdout.count(f"the bot can't be started: {foreign}: Exec format error\n"), 12, done.stdout)
        self.assertIn("\nforeign: not tried: the bot can't be started\n", done.stdout)

    def test_an_interrupted_grade_keeps_what_it_has_and_leaves_nothing_running(self) -> None:
        """Of two bots, one is killed in all of its 12 cases, and the other hangs. Then the grade is interrupted. The
        table has the first bot's cases."""
        table = self.room / "cases.json"
        bots = [f"python3 {self.faulty} {fault}" for fault in ("hangs", "bombs")]
        going = subprocess.Popen(
            [sys.executable, TOP / "class", "grade", *bots, "--into", self.room / "grades", "--json", table, "--timeout", str(LIMIT),
             "--at-once", "24"], stdout=subprocess.PIPE, stderr=subprocess.STDOUT, text=True)
        assert going.stdout is not None
        lines = []
        for line in going.stdout:  # Each of the 12 cases of `bombs` ends soon, since that bot is killed.
            lines.append(line)
            if sum("more than 64 processes" in each for each in lines) == 12:
                break
        going.send_signal(signal.SIGINT)
        lines += list(going.stdout)
        going.stdout.close()
        self.assertEqual(going.wait(LIMIT), 4, lines)
        self.assertIn("interrupted: only 12 of 24 cases were tried to their end\n", lines)
        self.assertEqual(len(json.loads(table.read_text(encoding="utf-8"))), 12)
        self.check_nothing_left()

    def test_bots_that_fight_their_keeper_take_no_result_away(self) -> None:
        """In namespaces these bots can't reach their keeper. Without namespaces they stop or kill it, and fail because
        of that. The correct bot passes in both ways."""
        labs = self.room / "labs"
        labs.mkdir()
        shutil.copy(EXAMPLES / "path.toml", labs)
        self.reasons_of_fighters(labs)
        whys = self.reasons_of_fighters(labs, "--not-apart")
        self.assertEqual(whys["halts"], {"the bot was ended: it halted the process that watches it"})
        self.assertEqual(whys["kills"], {"the bot was ended: it killed the process that watches it"})

    def reasons_of_fighters(self, labs: Path, *more: str) -> dict[str, set[str]]:
        """Grades bots that kill or halt their keeper, or replace their output file, together with a correct bot. The
        labs are those of the folder `labs`, and `more` are further options. Checks that only the correct bot passes.
        Returns the reasons for which each bot failed."""
        table = self.room / "cases.json"
        faults = ("swaps-output", "halts", "kills", "right")
        done = call_class("grade", *(f"python3 {self.faulty} {fault}" for fault in faults), "--labs", labs, "--timeout", "60",
                          "--into", self.room / "grades", "--json", table, *more)
        self.assertEqual(done.returncode, 5, done.stdout + done.stderr)
        self.check_nothing_left()
        cases = json.loads(table.read_text(encoding="utf-8"))
        self.assertEqual([each["passed"] for each in cases], [False] * 9 + [True] * 3)
        # Each bot has three cases, one after another.
        whys = {fault: {each["why"] for each in cases[3 * index:][:3]} for index, fault in enumerate(faults)}
        self.assertEqual(whys["swaps-output"], {"the bot ended by itself, with status 3"})
        return whys

    def test_a_second_interrupt_ends_a_grade_whatever_it_waits_for(self) -> None:
        """The grade waits for 12 processes of `mml answer`. The test stops these processes, so that they never answer.
        The first interrupt doesn't end the grade, and the second does. The results of the first bot's 12 cases are
        kept."""
        table = self.room / "cases.json"
        rooms = self.room / "rooms"
        rooms.mkdir()
        bots = [f"python3 {self.faulty} {fault}" for fault in ("forks", "leaves")]
        going = subprocess.Popen(
            [sys.executable, TOP / "class", "grade", *bots, "--suite", "small", "--daemon", "by-hand", "--into", self.room / "grades", "--json", table,
             "--timeout", str(LIMIT), "--at-once", "24"], stdout=subprocess.PIPE, stderr=subprocess.STDOUT, text=True,
            env={**os.environ, "TMPDIR": str(rooms)})
        assert going.stdout is not None
        self.addCleanup(going.kill)
        failed = 0
        for line in going.stdout:
            failed += line.startswith("FAILED  python3 faulty.py forks: ")
            if failed == 12:
                break
        late = time.monotonic() + LIMIT
        while len(answering := [child for child in children(going.pid) if b"answer" in words_of(Path(f"/proc/{child}"))]) != 12:
            self.assertLess(time.monotonic(), late, answering)
            time.sleep(0.05)
        for child in answering:
            self.addCleanup(end, child)
            os.kill(child, signal.SIGSTOP)
        # By then each bot has sent a line that isn't answered, since the bots look at nodes again and again.
        time.sleep(5)
        going.send_signal(signal.SIGINT)
        with self.assertRaises(subprocess.TimeoutExpired):
            going.wait(3)
        going.send_signal(signal.SIGINT)
        self.assertEqual(going.wait(LIMIT), 4)
        going.stdout.close()
        self.assertEqual([each["bot"] for each in json.loads(table.read_text(encoding="utf-8"))], ["python3 faulty.py forks"] * 12)
        self.assertEqual([child for child in answering if Path(f"/proc/{child}").exists()], [])
        self.assertEqual(list(rooms.iterdir()), [])
        self.check_nothing_left()

    def test_a_grade_that_is_killed_leaves_nothing_running(self) -> None:
        going = subprocess.Popen([sys.executable, TOP / "class", "grade", f"python3 {self.faulty} leaves", "--into", self.room / "grades"],
                                 stdout=subprocess.DEVNULL)
        self.addCleanup(going.kill)
        wait_until(lambda: len(self.left_behind()) >= 3)  # until the bot of three cases has left a process running
        going.kill()
        going.wait(LIMIT)
        self.check_nothing_left()


if __name__ == "__main__":
    unittest.main()
