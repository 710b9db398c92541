"""One network of a class: the process that runs its desk, the output of that process, and its alarm. The *desk* is the
teacher's connection to the network's server. A network is *down* if its server or its desk is gone, and the *alarm* is
the text about that. The lines that its process prints while it starts have *facts*, such as a port. The *record* of a
run is the file `run.json` in its folder, and a *door* is a TLS port for students on other machines."""
from __future__ import annotations

import os
import queue
import re
import signal
import subprocess
import sys
import threading
from collections.abc import Callable
from dataclasses import dataclass, field, replace
from functools import partial
from pathlib import Path
from typing import Any

from classroom.core import class_state
from classroom.core.class_state import DOWN, ENDED, RUNS, STARTS, NetworkState
from classroom.core.classes import Network
from classroom.core.folders import Record
from classroom.core.lab import Lab
from classroom.core.program import TOP
from classroom.core.statuses import FAILED, how_ended
from classroom.run.teller import FROM_ELSEWHERE, READY, TO_ACT, TO_CONTINUE, TO_LOOK, TO_PLAY

Child = subprocess.Popen[str]
News = queue.SimpleQueue[Callable[[], None]]
# The lines that a run prints while it starts, by the names of the facts in them.
FACTS = {
    "port": re.compile(r"port (\d+), .*"), "page": re.compile(rf"{TO_LOOK} (http\S+)"), "act": re.compile(rf"{TO_ACT} (http\S+)"),
    "play": re.compile(rf"{TO_PLAY} (http\S+)"), "play_from": re.compile(rf"{TO_PLAY}{FROM_ELSEWHERE} (http\S+)"),
    "look_from": re.compile(rf"{TO_LOOK}{FROM_ELSEWHERE} (http\S+)"),
}
TOLD_IN_TABLE = ("slips: ", "desk at ", READY, TO_ACT)
DIED = re.compile(r"the server has ended.*|the desk can't be used.*|nothing more is granted: .*|class: .*")
LEFT_OUT = re.compile(rf"{TO_CONTINUE}.*|the lesson .*|it is \d\d:\d\d: .*")  # The class's desk prints such a line itself, once for all networks.


def environment() -> dict[str, str]:
    """Returns the environment for a run's process: that of this process, with unbuffered output."""
    return {**os.environ, "PYTHONUNBUFFERED": "1"}


@dataclass
class Member:
    """A network of a class, with the process that runs its desk."""

    number: int
    network: Network
    folder: Path  # the folder of the network's run
    lab: Lab  # the lab without the house
    more: list[str]  # The arguments with which the run is started.
    news: News  # the queue of functions that the class's desk calls
    child: Child | None = None
    facts: dict[str, str] = field(default_factory=dict)  # the values in the lines that the process printed while it started, by their names
    wanted: set[str] = field(default_factory=set)  # the names of the facts that the process prints before it has started
    status: str = STARTS
    alarm: str = ""  # Why the network is down, and which command is the remedy; empty if it isn't down.
    code: int = 0  # The exit status of the network's last process.
    why: str = ""  # The reason that the process gave for its end.
    is_ready: bool = False  # Whether the process has printed that it accepts commands.
    has_desk: bool = False  # Whether a process ever held the network's desk.

    @property
    def name(self) -> str:
        """Returns the network's name."""
        return self.network.name

    def start(self, hear: Callable[[Member, str], None], ended: Callable[[Member], None]) -> None:
        """Starts the process that runs the desk: of a new run, of one that continues, or of a server that is still
        running. Queues a call of `hear` for each line of its output, and then a call of `ended`."""
        record = Record.read(self.folder)
        if record is None:
            words = ["run", self.network.lab, "--into", str(self.folder.parent), "--beside", *self.more]
        elif record.server.lives():
            words = ["attach", str(self.folder), *self.resume_words("--door-at")]
        else:
            words = ["run", "--resume", str(self.folder), *self.resume_words(), *(["--again"] if record.ended else [])]
        self.status, self.alarm, self.why, self.is_ready, self.facts = STARTS, "", "", False, {}
        self.wanted = facts_to_come(self.more, record)
        self.child = subprocess.Popen(
            [sys.executable, TOP / "class", *words, "--typed"], stdin=subprocess.PIPE, stdout=subprocess.PIPE,
            stderr=subprocess.STDOUT, text=True, start_new_session=True, env=environment(),
        )
        threading.Thread(target=self.follow, args=[self.child, hear, ended], daemon=True).start()

    def resume_words(self, *but: str) -> list[str]:
        """Returns the arguments for a run that continues. They are those of the network without the options for a new
        run: `--port` and `--into` with their values, `--serve` and `--beside`. The options in `but` are also left out,
        each with its value."""
        words = list(self.more)
        for word in ("--port", "--into", *but):
            if word in words:
                at = words.index(word)
                del words[at:at + 2]
        return [word for word in words if word not in ("--serve", "--beside")]

    def follow(self, child: Child, hear: Callable[[Member, str], None], ended: Callable[[Member], None]) -> None:
        """Queues a call of `hear` for each line that the process `child` prints, and then a call of `ended`."""
        assert child.stdout is not None
        for line in child.stdout:
            self.news.put(partial(hear, self, line.rstrip("\n")))
        child.wait()
        self.news.put(partial(ended, self))

    def note_line(self, line: str) -> bool:
        """Notes what a line that the process has printed says: a fact, that the process accepts commands, or why it
        ends. Returns whether the class's desk prints the line. While the network starts, the desk doesn't print lines
        whose content its table of networks has. Later it doesn't print lines that it prints itself, once for all
        networks."""
        fact, value = fact_in(line)
        is_new = fact != "" and fact not in self.facts
        if fact:
            self.facts[fact] = value
        self.why = line if DIED.fullmatch(line) else self.why
        self.is_ready = self.is_ready or line.startswith(READY)
        self.has_desk = self.has_desk or self.is_ready
        if self.status == STARTS and self.is_ready and self.wanted <= self.facts.keys():
            self.status = RUNS
        # The line by which the start is complete is still one of the start.
        if self.status == STARTS or is_new or line.startswith(READY):
            return not (fact or line.startswith(TOLD_IN_TABLE))
        return not LEFT_OUT.fullmatch(line)

    def send(self, line: str) -> bool:
        """Sends a typed line to the process. Returns false if the line couldn't be sent, for example because the
        process has ended."""
        try:
            assert self.child is not None and self.child.stdin is not None
            self.child.stdin.write(line + "\n")
            self.child.stdin.flush()
        except (AssertionError, OSError, ValueError):
            return False
        return True

    def note_end(self) -> None:
        """Notes that the process has ended. Unless the network's run has ended too, the network is down, and gets an
        alarm."""
        assert self.child is not None
        self.code = self.child.returncode
        for pipe in (self.child.stdin, self.child.stdout):
            if pipe is not None:
                try:
                    pipe.close()
                except OSError:
                    pass
        record = Record.read(self.folder)
        if record is not None and record.ended and not record.goes_on():
            self.status = ENDED
            return
        self.status = DOWN
        if record is not None and record.server.lives():
            what = "the process that controlled it has ended, but its server keeps running"
        else:
            what = self.why or f"its process has ended, {how_ended(self.code)}"
        # If the desk was used and there is no record, the run can't be resumed, and a new one would be begun.
        self.alarm = f"{what}; {self.remedy(record is not None or not self.has_desk)}"

    def remedy(self, can_resume: bool = True) -> str:
        """Returns which commands help if a network is down, as the end of its alarm. `can_resume` says whether the
        command `resume` is one of them."""
        resume = f"`resume {self.number}` to continue it, or " if can_resume else ""
        return f"type {resume}`end {self.number}` to give it up"

    def give_up(self) -> str:
        """Marks a network that is down as ended, also in the record of its run. Returns the line that reports it.
        Raises `ValueError` if its server is still running."""
        record = Record.read(self.folder)
        if record is not None and record.server.lives():
            raise ValueError(f"its server is still running. Type `resume {self.number}` to control it again, and then `end {self.number}` to end it")
        if record is not None:
            replace(record, ended=True).write(self.folder)
        self.status, self.alarm, self.code = ENDED, "", FAILED
        return f"this network is given up. Its files are in {self.folder}"

    def terminate(self) -> None:
        """Sends the process, if it is running, the signal to end its run."""
        if self.child is not None and self.child.poll() is None:
            self.child.send_signal(signal.SIGTERM)

    def leave(self) -> None:
        """Makes the process leave its desk to another process."""
        if self.child is not None and self.child.poll() is None:
            self.child.send_signal(signal.SIGUSR1)

    def page(self, acts: bool) -> str:
        """Returns the address of the network's page. If `acts` is set, this is the address to act at on this machine.
        Otherwise it is the address to look at, through the door if there is one. The result is empty if there is no
        such page."""
        return self.facts.get("act", "") if acts else self.facts.get("look_from", self.facts.get("page", ""))

    def shown(self, acts: bool = False) -> NetworkState:
        """Returns the state of the network as the page for all networks shows it. The state has the address of the
        network's own page: the one to act at if `acts` is set, and otherwise the one to look at."""
        port = int(self.facts["port"]) if "port" in self.facts else None
        page = self.page(acts) if self.status in (STARTS, RUNS) else ""
        return NetworkState(self.number, self.name, self.network.room, port, page, self.lab.sessions - 1, len(self.lab.students),
                            self.status, self.alarm, self.state())

    def state(self) -> dict[str, Any] | None:
        """Returns the state of the network that its run wrote last, or None if there is none."""
        return class_state.read(self.folder)


def fact_in(line: str) -> tuple[str, str]:
    """Returns the name of the fact in a line and its value, or two empty texts if the line has none."""
    for fact, pattern in FACTS.items():
        if found := pattern.fullmatch(line):
            return fact, found[1]
    return "", ""


def facts_to_come(words: list[str], record: Record | None) -> set[str]:
    """Returns the names of the facts that a run with the arguments `words` prints while it starts. `record` is that of
    the run if it continues, and otherwise None."""
    found = {"port"} | ({"play_from"} if "--door-at" in words else set())
    if "--page" in words or record is not None and record.page is not None:
        found |= {"page", "act"} | ({"look_from"} if "--door-at" in words else set())
    return found | ({"play"} if "--play" in words or record is not None and record.play is not None else set())
