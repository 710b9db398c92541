"""Building programs: the calls of `rt`, the progress line, and what is left after a signal."""
from __future__ import annotations

import os
import pty
import re
import shutil
import signal
import subprocess
import sys
import unittest
import unittest.mock
from pathlib import Path

from tests.build.clone import LIMIT, InClone, is_there
from tools.build.crates import TOP, expected, lines, needed
from tools.build.progress import Progress, chains
from tools.build.place import Place
from tools.build.proving import at_once_of, jobs_of, most_processes, processes_of, processors, width_for
from tools.build.running import Run, Width

USES: dict[str, list[str]] = {"a": [], "b": [], "c": ["a"], "d": ["b"], "e": ["c", "d"]}
SECONDS = {"a": 10.0, "b": 100.0, "c": 50.0, "d": 20.0, "e": 5.0}
# A program that gets a signal while it deletes an object, and pauses then as a build does.
DELETES = """
import os, signal
from tools.build.running import Stopped, note_signals, pause

class Signalling:
    def __del__(self):
        os.kill(os.getpid(), signal.SIGTERM)
        sum(range(1000))

note_signals()
Signalling()
try:
    pause()
except Stopped as stopped:
    print("stopped by", stopped.number)
"""
# A build that has nothing more to prove when a signal comes.
ENDS = """
import os, signal
import tools.build.__main__ as it

def build(_):
    os.kill(os.getpid(), signal.SIGTERM)
    return 0

it.build = build
it.main(["mml_host"])
"""


class Estimates(unittest.TestCase):
    """The order in which crates are proved, and the estimate of how long the remaining proofs take."""

    def test_the_proof_with_the_longest_chain_above_it_comes_first(self) -> None:
        """A crate is proved after those that it uses. `chains` returns for each crate the seconds of the longest chain
        of proofs that begins with it, such as 10 + 50 + 5 for a, c and e. Among the crates that can be proved next, the
        one with the longest chain comes first. `is_first` also holds if the chain is nearly as long as the longest
        one."""
        self.assertEqual(chains(USES, SECONDS), {"a": 65.0, "b": 125.0, "c": 55.0, "d": 25.0, "e": 5.0})
        progress = Progress(USES, SECONDS, 1)
        for crate, others in (("b", "a"), ("a", "d"), ("c", "d"), ("d", ""), ("e", "")):
            self.assertEqual((progress.next(), progress.is_first(crate)), ([crate, *others], True))
            progress.begun[crate] = 0.0
            self.assertEqual(progress.next(), [*others])
            progress.note(crate, False, 0.0)
        progress = Progress(USES, SECONDS, 2)
        self.assertEqual((progress.is_first("b"), progress.is_first("a")), (True, False))
        nearly = Progress(USES, {**SECONDS, "a": 65.0}, 2)
        self.assertEqual((nearly.longest["a"], nearly.is_first("b"), nearly.is_first("a")), (120.0, True, True))

    def test_the_time_that_is_left_is_that_of_proofs_side_by_side(self) -> None:
        """Independent proofs run side by side, as many as there are processors. With one processor, they take the sum
        of all times, and with more, at least the time of the longest chain. The progress line has this time."""
        self.assertEqual([Progress(USES, SECONDS, number).left(0.0) for number in (1, 2, 4)], [185.0, 125.0, 125.0])
        progress = Progress(USES, SECONDS, 2)
        progress.begun = {"a": 0.0, "b": 0.0}
        # The longest chain is b, d and e: 40 seconds of b are left, and then d and e take 20 and 5.
        self.assertEqual(progress.left(60.0), 65.0)
        progress.note("b", True, 0.0)
        progress.note("a", True, 0.0)
        self.assertEqual(progress.left(0.0), 55.0)
        self.assertEqual(progress.line(0.0), "2 of 5 crates proved, 2 of them earlier; about a minute left")
        for crate in "cde":
            progress.note(crate, False, 300.0)
        self.assertEqual(progress.line(0.0), "5 of 5 crates proved, 2 of them earlier")

    def test_the_processes_of_a_proof_and_the_proofs_at_once_by_processors(self) -> None:
        """Proofs begin until their processes occupy all processors. If proofs have several processes, there may be one
        process more, since such a proof begins and ends with a single process. RT_JOBS replaces the number of
        processors, and then each proof has one process."""
        with unittest.mock.patch.dict(os.environ, {"RT_JOBS": ""}):
            shares = [(number, jobs_of(number), most_processes(number), at_once_of(number)) for number in (1, 2, 4, 6, 8, 16)]
            widths = [processes_of(width, number) for number in (1, 2, 4, 16) for width in (Width.ONE, Width.USUAL, Width.ALL)]
        self.assertEqual(shares, [(1, 1, 1, 1), (2, 1, 2, 2), (4, 2, 5, 3), (6, 3, 7, 3), (8, 4, 9, 3), (16, 4, 17, 5)])
        self.assertEqual(widths, [1, 1, 1, 1, 1, 2, 1, 2, 4, 1, 4, 4])
        with unittest.mock.patch.dict(os.environ, {"RT_JOBS": "3"}):
            self.assertEqual((processors(), jobs_of(3), most_processes(3), at_once_of(3), processes_of(Width.ALL, 3)), (3, 1, 3, 3, 1))

    def test_a_proof_has_several_processes_if_the_longest_chain_waits_for_it_or_processors_would_be_idle(self) -> None:
        """The cases are those of a machine with four processors. A proof for which the longest chain waits has four
        processes if no other could use one of them, and else two. Any other proof has one process, or two if there are
        two idle processors for each crate that could begin."""
        cases = (
            (True, 4, 0, Width.ALL), (True, 4, 1, Width.USUAL), (True, 3, 0, Width.USUAL), (True, 0, 5, Width.USUAL),
            (False, 4, 0, Width.USUAL), (False, 4, 1, Width.USUAL), (False, 4, 2, Width.ONE), (False, 2, 0, Width.USUAL),
            (False, 1, 0, Width.ONE), (False, 0, 0, Width.ONE),
        )
        with unittest.mock.patch.dict(os.environ, {"RT_JOBS": ""}):
            for is_first, idle, others, width in cases:
                self.assertEqual(width_for(is_first, idle, others, 4), width, (is_first, idle, others))

    def test_the_time_that_is_left_follows_the_pace_of_the_machine(self) -> None:
        """If the machine takes twice as long as the table says, the remaining proofs are expected to take twice as long
        too."""
        seconds = {crate: 100 * it for crate, it in SECONDS.items()}
        progress = Progress(USES, seconds, 1)
        progress.begun = {"b": 0.0}
        progress.note("b", False, 20_000.0)
        # By the table, b takes 10,000 seconds, and the others 8,500 in all.
        self.assertAlmostEqual(progress.left(20_000.0) / 8_500, 2.0, delta=0.05)
        # The proof of a takes much longer than expected. By the table, the other three take 7,500 seconds.
        progress.begun = {"a": 20_000.0}
        self.assertGreater(progress.left(2_000_000.0), 2 * 7_500)

    def test_each_crate_of_the_program_has_its_expected_time(self) -> None:
        """Also checks that the program needs only some of the crates in `crates.txt`, and not `mml_server`."""
        crates = needed(["mml_host"])
        self.assertTrue(set(crates) < set(lines()))
        self.assertNotIn("mml_server", crates)
        self.assertGreater(min(expected(crates).values()), 0)


class Signals(unittest.TestCase):
    """Signals that come at a moment in which the build doesn't look for them."""

    def run_program(self, text: str) -> subprocess.CompletedProcess[str]:
        """Runs the Python program `text` at the top of this clone to its end. Returns its result."""
        return subprocess.run([sys.executable, "-B", "-c", text], cwd=TOP, capture_output=True, text=True, timeout=LIMIT, check=False)

    def test_a_signal_that_comes_while_an_object_is_deleted_ends_the_build(self) -> None:
        """Python ignores exceptions that are raised while it deletes an object, and goes on."""
        done = self.run_program(DELETES)
        self.assertEqual((done.stdout, done.stderr), (f"stopped by {signal.SIGTERM.value}\n", ""))

    def test_a_signal_that_comes_at_the_end_of_the_build_still_ends_it(self) -> None:
        """Otherwise a command that builds the program would do its work after a Ctrl-C."""
        self.assertEqual(self.run_program(ENDS).returncode, -signal.SIGTERM)


class Builds(InClone):
    """Calls of `./mml` in a clone whose `rt` is a stand-in."""

    def test_rt_gets_only_the_sources_of_what_is_needed(self) -> None:
        """`rt ci` is called in a repository that has the sources of what is needed, and nothing else."""
        for path in ("low/src/.lib.rt.swp", "low/out/incremental/kept", "low/wrong/bad.edit", "low/must-fail/bad.edit", "low/README.md",
                     "low/specs/Lib.antt", "low/proofs/f/Proof.antt", "mml_host/stdin", "mml_host/data/lab.toml"):
            file = self.clone / "crates" / path
            file.parent.mkdir(parents=True, exist_ok=True)
            file.touch()
        done = self.call("./mml")
        self.assertEqual((done.returncode, done.stdout), (0, "new\n"), done.stderr)
        # All paths that the stand-in saw, except for the crates' own folders and their folders `src`.
        files = {it for it in (self.room / "seen").read_text(encoding="utf-8").splitlines() if it.count("/") != 1 and not it.endswith("src")}
        self.assertEqual(files, {
            ".git", "HANDLES", "crates", "crates.txt", "crates/low/src/lib.rt", "crates/low/specs", "crates/low/specs/Lib.antt",
            "crates/low/proofs", "crates/low/proofs/f", "crates/low/proofs/f/Proof.antt", "crates/left/src/lib.rt",
            "crates/right/src/lib.rt", "crates/mml_host/src/lib.rt", "crates/mml_host/stdin", "crates/mml_host/data", "crates/mml_host/data/lab.toml",
        })
        self.assertEqual((self.room / "words").read_text(encoding="utf-8"), "ci")
        self.assertTrue((self.clone / "crates/low/out/incremental/kept").exists())
        self.assertEqual([*self.temporary.iterdir()], [])

    def test_the_proof_of_the_longest_chain_gets_all_processors(self) -> None:
        """The proof that the longest chain waits for is given all processors, and one beside it half of them."""
        (self.clone / "tools/build/seconds.txt").write_text("low 1\nleft 9\nright 1\nmml_host 1\n", encoding="utf-8")
        self.assertEqual(self.call("./mml", "build", RT_JOBS="2").returncode, 0)
        number = len(os.sched_getaffinity(0))
        told = [line.split() for line in (self.room / "processors").read_text(encoding="utf-8").splitlines()]
        # The first run is that of all four crates, of which `mml_host` is the last.
        self.assertEqual(told[0], ["mml_host", "4", str(number)])
        each = {crate: int(processors) for crate, _, processors in told[1:]}
        # A proof that gets all processors sees twice as many, since `rt` takes half of those that it sees (tools/build/wide.py).
        self.assertEqual((each["low"], each["left"], each["right"]), (2 * number, 2 * number, number))

    def test_rt_is_limited_to_one_process_for_a_narrow_proof(self) -> None:
        """A run of the width ONE sets RT_JOBS for `rt`, and the other widths leave it as it is."""
        (self.clone / "crates.txt").write_text("low:\n", encoding="utf-8")
        for width, jobs in ((Width.ONE, "1"), (Width.USUAL, "7"), (Width.ALL, "7")):
            shutil.rmtree(self.clone / "crates/low/out", ignore_errors=True)
            with unittest.mock.patch.dict(os.environ, self.environment(RT_JOBS="7"), clear=True):
                run = Run(Place(self.clone, self.temporary, self.room / "log"), width, is_first=width is not Width.ONE)
            self.assertEqual(run.process.wait(LIMIT), 0, (self.room / "log").read_text(encoding="utf-8"))
            self.assertEqual((self.room / "jobs").read_text(encoding="utf-8"), jobs)

    def test_rt_sees_twice_the_memory_for_a_proof_that_runs_alone(self) -> None:
        """If no other proof can run beside one, `rt` is made to see twice the memory (`--alone` in
        tools/build/wide.py). The reason is that its estimate for large crates is too high. Here `low` and `mml_host`
        run alone, and `left` and `right` run side by side, since the setting `meets` names them."""
        self.set("meets", "left right")
        self.assertEqual(self.call("./mml", "build", RT_JOBS="2").returncode, 0)
        there = int(Path("/proc/meminfo").read_text(encoding="ascii").split()[1])  # the first number is that of MemTotal
        told = [line.split() for line in (self.room / "memory").read_text(encoding="utf-8").splitlines()]
        each = {crate: int(memory) for crate, _, memory in told[1:]}  # The first line is that of the run of all crates.
        self.assertEqual(each, {"low": 2 * there, "left": there, "right": there, "mml_host": 2 * there})

    def test_in_a_git_clone_the_proofs_run_in_a_folder_of_git(self) -> None:
        """In a Git clone, the build makes its repository on the clone's disk, in a folder that no check reads. The
        build removes this repository at the end."""
        git = self.clone / ".git"
        git.mkdir()
        self.set("waits", "left")
        going = self.start("./mml", "build")
        self.assertRegex(str(Path(f"/proc/{self.pids()[0]}/cwd").readlink()), f"^{re.escape(str(git))}/mml-build-[0-9]+-[^/]+/[0-9]+$")
        self.assertTrue(Path((self.room / "temporary").read_text(encoding="utf-8")).is_relative_to(self.temporary))
        os.kill(going.pid, signal.SIGTERM)
        self.wait_for_end(going)
        self.wait_until(lambda: not [*self.temporary.iterdir(), *git.iterdir()])

    def test_the_clone_gets_each_library_that_rt_check_has_not_built(self) -> None:
        """The build copies its libraries into the clone. A library that `rt check` built there has a file `stamp`
        beside it, and stays as it is."""
        for crate, stamp in (("low", "stamp"), ("left", "none")):
            for name in (f"{crate}.rlib/format", stamp):
                file = self.clone / "crates" / crate / "out/rlib" / name
                file.parent.mkdir(parents=True, exist_ok=True)
                file.write_text("old", encoding="utf-8")
        self.assertEqual(self.call("./mml", "build").returncode, 0)
        formats = {crate: (self.clone / f"crates/{crate}/out/rlib/{crate}.rlib/format").read_text(encoding="utf-8") for crate in ("low", "left", "right")}
        self.assertEqual(formats, {"low": "old", "left": "new", "right": "new"})
        self.assertFalse((self.clone / "crates/left/out/rlib/none").exists())

    def test_build_prints_the_expected_time_first_and_then_the_progress(self) -> None:
        done = self.call("./mml", "build", RT_JOBS="3")
        self.assertEqual(done.returncode, 0, done.stderr)
        self.assertRegex(done.stderr, r"^mml: building mml_host, after proving 4 crates; .*\n"
                                      r"mml: if nothing is proved yet, that takes (about \d+ minutes|about a minute) on 3 processors, .*\n")
        self.assertRegex(done.stderr, r"\nmml: \d of 4 crates proved; (about \d+ minutes|about a minute) left\n")
        self.assertTrue(done.stderr.endswith("\nmml: 4 of 4 crates proved\n"), done.stderr)

    def test_on_a_terminal_the_progress_is_one_line_that_is_written_over(self) -> None:
        """The stand-in waits before the proof of `right`, so that the line about two proved crates is printed. Then the
        child for which the stand-in waits is killed, so that the build continues."""
        self.set("waits", "right")
        ours, theirs = pty.openpty()
        going = subprocess.Popen(["./mml", "build"], cwd=self.clone, stdin=subprocess.DEVNULL, stdout=subprocess.DEVNULL, stderr=theirs,
                                 env=self.environment(), start_new_session=True)
        os.close(theirs)
        self.addCleanup(os.close, ours)
        self.addCleanup(going.kill)
        said = b""
        while b"2 of 4 crates proved" not in said:
            said += os.read(ours, 1000)
        self.wait_until(self.pids)
        self.set("waits", "")
        os.kill(self.pids()[1], signal.SIGKILL)
        while b"4 of 4 crates proved" not in said:
            said += os.read(ours, 1000)
        self.assertEqual(going.wait(LIMIT), 0)
        # The two lines before the progress line end with these words.
        shown = said.decode().replace("\r\n", "\n").rpartition("without proofs\n")[2].split("\r")
        self.assertGreater(len(shown), 2, said)
        self.assertTrue(all(re.match(r"mml: \d of 4 crates proved", line) for line in shown[1:]), shown)
        self.assertFalse(any("\n" in line for line in shown[:-1]), shown)

    def test_crates_that_do_not_depend_on_each_other_are_proved_side_by_side(self) -> None:
        """Each of these crates is proved in its own repository. The first and the last run of `rt` are those of the
        whole program."""
        self.set("meets", "left right")
        done = self.call("./mml", "build", RT_JOBS="2")
        self.assertEqual(done.returncode, 0, done.stderr)
        runs = (self.room / "runs").read_text(encoding="utf-8").splitlines()
        self.assertEqual(runs[:2], ["low left right mml_host", "low"])
        self.assertEqual(sorted(runs[2:4]), ["low left", "low right"])
        self.assertEqual(runs[4:], ["low left right mml_host"])

    def test_if_rt_keeps_no_proofs_a_last_run_proves_everything(self) -> None:
        """The first run of all crates is stopped when it begins to prove, as always. The run of `low` then prints that
        nothing is kept. So no other crate gets a run of its own, and one more run proves all crates."""
        self.set("lacks", "the store cannot be used, so nothing is kept: the next run, and the merge, prove all again")
        done = self.call("./mml", "build")
        self.assertEqual(done.returncode, 0, done.stderr)
        self.assertTrue(done.stderr.endswith("\nmml: 4 of 4 crates proved\n"), done.stderr)
        every = "low left right mml_host"
        self.assertEqual((self.room / "runs").read_text(encoding="utf-8").splitlines(), [every, "low", every])
        self.assertEqual(self.call("./mml").stdout, "new\n")

    def test_if_rt_is_too_old_to_keep_proofs_there_is_one_run(self) -> None:
        """An older `rt` proves every crate in every run, and doesn't print that it keeps nothing. The build recognises it
        by its files, which lack the words `is kept`. The only run isn't stopped, and is given all processors."""
        rt = self.bin / "rt"
        # The older `rt` also lacks the wait by which the stand-in's first run lasts until it is stopped.
        text = rt.read_text(encoding="utf-8").replace("is kept", "proved").replace('"1000" if here.name == "1" else', "")
        rt.write_text(text, encoding="utf-8")
        done = self.call("./mml", "build", RT_JOBS="2")
        self.assertEqual(done.returncode, 0, done.stderr)
        self.assertIn("crates; this toolchain reuses no proofs of earlier builds\n", done.stderr)
        self.assertTrue(done.stderr.endswith("\nmml: 4 of 4 crates proved\n"), done.stderr)
        self.assertEqual((self.room / "runs").read_text(encoding="utf-8").splitlines(), ["low left right mml_host"])
        number = len(os.sched_getaffinity(0))
        # The last of the four crates, their number, and the processors that `rt` sees: twice as many as there are, since it
        # takes half of them (tools/build/wide.py).
        self.assertEqual((self.room / "processors").read_text(encoding="utf-8").split(), ["mml_host", "4", str(2 * number)])
        self.assertEqual(self.call("./mml").stdout, "new\n")

    def test_a_second_clone_proves_nothing_again(self) -> None:
        self.call("./mml", "build")
        second = self.room / "second"
        shutil.copytree(self.clone, second, ignore=shutil.ignore_patterns("out"))
        done = self.call(second / "mml", "build")
        self.assertEqual(done.returncode, 0, done.stderr)
        self.assertTrue(done.stderr.endswith("\nmml: 4 of 4 crates proved, 4 of them earlier\n"), done.stderr)
        self.assertTrue((second / "crates/mml_host/out/mml_host").exists())

    def test_a_signal_ends_the_build_and_the_next_one_continues(self) -> None:
        """A signal ends `rt` and all that it started, and leaves no program, log or temporary file; the next call goes
        on."""
        for number, is_group in ((signal.SIGINT, True), (signal.SIGTERM, False), (signal.SIGTERM, True), (signal.SIGHUP, True)):
            with self.subTest(number=number, is_group=is_group):
                self.set("waits", "right")
                going = self.start("./mml", "build")
                (os.killpg if is_group else os.kill)(going.pid, number)
                error = self.wait_for_end(going)
                self.assertEqual(going.returncode, -number)
                self.assertIn("mml: stopped; what is proved is kept, and the next build continues from there\n", error)
                self.wait_until(lambda: not [*self.temporary.iterdir()])
                self.assertEqual([*self.clone.glob("crates/mml_*/out")] + [*self.clone.glob("crates/*/build.log")], [])
        self.set("waits", "")
        done = self.call("./mml", "build")
        self.assertEqual(done.returncode, 0, done.stderr)
        self.assertTrue(done.stderr.endswith("\nmml: 4 of 4 crates proved, 2 of them earlier\n"), done.stderr)

    def test_if_the_build_is_killed_rt_is_ended_and_the_next_build_cleans_up(self) -> None:
        self.set("waits", "right")
        going = self.start("./mml", "build")
        rt = self.pids()[0]  # Its parent is the process of the build, a child of `./mml`.
        parent = Path(f"/proc/{rt}/stat").read_text(encoding="utf-8").rpartition(") ")[2].split()[1]  # the second field after the name
        os.kill(int(parent), signal.SIGKILL)
        self.wait_for_end(going)
        self.assertFalse(is_there(rt))
        self.assertEqual(going.returncode, 128 + signal.SIGKILL)
        self.assertEqual(len([*self.temporary.iterdir()]), 2)  # The killed build couldn't remove its folders.
        self.set("waits", "")
        self.assertEqual(self.call("./mml", "build").returncode, 0)
        self.assertEqual([*self.temporary.iterdir()], [])

    def test_a_proof_that_fails_is_reported_and_the_old_program_stays(self) -> None:
        """The stand-in fails at the crate `left`. The log of the build is removed by the next build that succeeds."""
        self.call("./mml", "build")
        (self.clone / "crates/low/src/lib.rt").write_text("// another\n", encoding="utf-8")
        self.set("fails", "left")
        done = self.call("./mml", "build")
        self.assertEqual(done.returncode, 1)
        log = self.clone / "crates/mml_host/build.log"
        self.assertIn("src/lib.rt:1:1: error: a goal is open\nrt: left NOT PROVED\n", done.stderr)
        self.assertTrue(done.stderr.endswith(f"mml: the build failed, see {log}; if there was an older program, it is kept\n"), done.stderr)
        self.assertIn("0 passed, 1 failed", log.read_text(encoding="utf-8"))
        self.assertEqual(self.program("mml_host").read_text(encoding="utf-8"), "#!/bin/sh\necho new\n")
        self.assertEqual([*self.temporary.iterdir()], [])
        self.set("fails", "")
        self.assertEqual(self.call("./mml", "build").returncode, 0)
        self.assertFalse(log.exists())
