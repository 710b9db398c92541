"""A class of several networks, for tests. It has one desk, the process that runs the teacher's commands and prints
lines. Each network has its own server, and a run of its own with a folder in that of the class."""
from __future__ import annotations

import json
import os
import re
import signal
import subprocess
import sys
from pathlib import Path
from typing import Any

from classroom.core.class_state import read as state_of
from classroom.core.folders import Record
from classroom.core.program import TOP
from tests.classroom.help import LIMIT, Going, InRoom, a_port, call_class

NAMES = ("Zoë Müller", "José García", "Lukas Schmidt", "Lukas Schmidt", "Ana Lima", "Ben Roy", "Cyd Sol", "Dora Em")


class GoingClass(Going):
    """A running class of several networks. The test types commands at its desk, and reads the printed lines one by
    one."""

    def __init__(self, test: InRoom, *more: str | Path, **environment: str) -> None:
        """Starts a class by these arguments of `./class`, with `environment` added to the environment. Reads up to the
        line with the commands of its desk. After the test all processes of the class are killed."""
        self.lines: list[str] = []
        self.process = subprocess.Popen(
            [sys.executable, TOP / "class", *more, "--typed"], stdin=subprocess.PIPE, stdout=subprocess.PIPE,
            stderr=subprocess.STDOUT, text=True, env={**os.environ, **environment},
        )
        test.addCleanup(self.close)
        test.addCleanup(self.kill_processes)
        told = re.search(r"^class of \d+ networks?; folder (.*)$", self.until("^class of "))
        assert told is not None
        self.folder = Path(told[1])
        self.until("^commands: ")

    def record(self, name: str) -> Record:
        """Returns the contents of `run.json`, the file about the run of the network with this name. Fails if the file
        is missing or isn't valid."""
        record = Record.read(self.folder / name)
        assert record is not None
        return record

    def kill(self, name: str) -> None:
        """Kills the server of the network with this name."""
        os.kill(self.record(name).server.number, signal.SIGKILL)

    def state(self, name: str) -> dict[str, Any]:
        """Returns the state that the run of the network with this name wrote last, or an empty one if it wrote
        none."""
        return state_of(self.folder / name) or {}

    def marks(self, name: str) -> dict[str, int]:
        """Returns the values that `marks.json` has about the ended run of the network with this name."""
        run: dict[str, int] = json.loads((self.folder / name / "marks.json").read_text(encoding="utf-8"))["runs"][0]
        return run

    def kill_processes(self) -> None:
        """Kills the desk, the servers and the processes of the runs, as far as they haven't ended."""
        if self.process.poll() is None:
            self.process.kill()
        # There is no `folder` if the class failed before it printed the folder's path.
        for folder in self.folder.iterdir() if hasattr(self, "folder") else ():
            record = Record.read(folder)
            for it in (record.run, record.server) if record is not None else ():
                if it.lives():
                    os.kill(it.number, signal.SIGKILL)


class Classes(InRoom):
    """Tests with a class of eight students in two networks, maths-1 and maths-2."""

    def setUp(self) -> None:
        """Makes the labs of both networks, whose nodes have random registers at the beginning."""
        super().setUp()
        students = self.file("names.txt", "\n".join(NAMES) + "\n")
        made = call_class("new", self.room / "maths.toml", "--students", students, "--groups", "2", "--start", "random", "--seed", "5")
        self.assertEqual(made.returncode, 0, made.stderr)
        self.labs = [self.room / "maths-1.toml", self.room / "maths-2.toml"]

    def begin(self, *more: str | Path) -> GoingClass:
        """Starts a class with these options, and returns its desk."""
        return GoingClass(self, "run", *self.labs, "--into", self.room / "runs", "--port", str(a_port()), *more)

    def bot(self, desk: GoingClass, network: str, name: str) -> subprocess.Popen[bytes]:
        """Starts the bot of a student in a network, with a slip that has the port of the running class. Returns its
        process."""
        number = network.rpartition("-")[2]
        text = (self.room / f"maths-{number}-slips" / f"{name}.slip").read_text(encoding="utf-8")
        slip = self.file(f"{name}.{network}.slip", re.sub(r"(?m)^port \d+$", f"port {desk.record(network).port}", text))
        bot = subprocess.Popen([sys.executable, TOP / "examples/bot.py", slip], stdin=subprocess.DEVNULL, stdout=subprocess.DEVNULL,
                               stderr=subprocess.DEVNULL)
        self.addCleanup(bot.wait, LIMIT)
        self.addCleanup(bot.kill)
        return bot
