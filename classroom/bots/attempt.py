"""A bot in a case: starting the bot, observing it, and ending the case at the first action that a correct bot wouldn't
take.

A *bot* is a student's program under test. A *case* is a lab that the bot plays, with troubles during the run. The lab's
class runs in this process (`classroom.bots.playing`), and its *relay* is the port to which the bot connects. A bot is
*kept apart* if it runs in namespaces of its own (`classroom.bots.apart`). Functions that run the class raise `Fails` if
the bot has done something wrong, and `Stopped` after an interrupt. A *script* is a list of request lines that repeats
the class's run.
"""
from __future__ import annotations

import os
import random
import threading
import time
from dataclasses import dataclass
from pathlib import Path
from typing import IO

from classroom.bots import explaining
from classroom.bots.apart import World
from classroom.bots.bots import Bot, RunningBot, end_in_words, last_line
from classroom.bots.conduct import FLOODS, MINUTE, most_connections, most_open, most_quits
from classroom.bots.playing import NotGranted, Playing
from classroom.bots.suites import Case
from classroom.core.program import call
from classroom.setup import slips

ALLOWED = ("stale", "chosen", "memory")
HINTS = {
    "not-greeted": "a bot says hello on each new connection, even if it said hello on an earlier one",
    "greeted": "a bot says hello only once on each connection",
    "unknown": "a bot takes its name and key from its slip",
    "not-owner": "a bot looks at and moves only its own nodes, which are on its slip",
    "hidden": "a bot sees only its own nodes and their neighbours",
}
IN_PIECES = "; in this case replies are long and arrive in pieces: a bot reads each reply up to its newline"
ON = "; a bot keeps running until the class is over"
AGAIN = "a bot connects again, says hello and looks at its nodes again; if no server listens at the port, it keeps trying for a minute"
LATEST = 120.0  # the most seconds that making a bot's namespaces may take
MOST_KEPT = 1 << 20  # bytes of a bot's output that are kept
Seen = tuple[tuple[tuple[str, str], ...], tuple[str, ...]]  # what a bot sees: its paths, each with the path on this machine, and those that are hidden


class Fails(Exception):
    """Raised if the bot fails a case. The text is the reason."""


class NotStarted(Fails):
    """Raised if the system can't run the bot's command."""


class Stopped(Exception):
    """Raised if the grade was interrupted."""


@dataclass(frozen=True)
class Limits:
    """The limits of a bot in a case."""

    seconds: float = 20.0  # the processor time of the bot, and the most time of each wait for it
    megabytes: int = 512  # the memory of the bot and all processes that it starts
    own_rule: bool = False  # whether no look shows it the enabled rule


@dataclass(frozen=True)
class Surroundings:
    """The surroundings of a bot: its folder, which is empty at first, and a file outside of it for its output. If the
    bot is kept apart, they also include the other files that it sees, and those that are hidden from it."""

    folder: Path
    output: IO[bytes]
    seen: Seen | None = None


class Attempt:
    """One bot in one case, with the class that it plays in."""

    def __init__(self, bot: Bot, case: Case, limits: Limits, room: Surroundings, stop: threading.Event) -> None:
        """Opens the class of the case, and writes the bot's slip into the folder of `room`, unless the bot is kept
        apart. Doesn't start the bot. `limits` are those of the bot in the case, and `stop` is set by an interrupt.
        Raises `OSError` if the slip can't be written, and `Fault` if the class can't be opened."""
        self.bot, self.case, self.limits, self.room, self.stop = bot, case, limits, room, stop
        self.playing = Playing(case.made, [case.who], case.daemon, case.name(), own_rule=limits.own_rule)
        self.playing.relay.piece = case.piece
        self.heard = self.playing.heard[case.who]
        self.wrong = ""  # why a line of the bot is wrong, or empty
        self.doing = ""  # what is being done to the bot, for the error line if it ends
        self.playing.on_no = self.note_denial
        self.chance = random.Random(f"{case.name()} faults")
        self.kept: RunningBot | None = None
        self.slip = room.folder / "bot.slip"
        self.world: World | None = None
        text = "".join(f"{line}\n" for line in slips.slip(case.made, case.who, self.playing.relay.port))
        if room.seen is not None:
            self.world = World(*room.seen, text, self.playing.relay.port)
            return
        try:
            self.slip.write_text(text)
        except OSError:
            self.playing.end()
            raise

    def nodes(self) -> list[int]:
        """Returns the nodes that the bot owns, alone or with another student."""
        return self.case.made.nodes_of(self.case.who)

    def nodes_owned_alone(self) -> list[int]:
        """Returns the nodes of which the bot is the only owner."""
        return [node.id for node in self.case.made.nodes if node.owners == [self.case.who]]

    def note_denial(self, no: NotGranted) -> None:
        """Records in `wrong` why the line in `no` wasn't granted, so that `turn` fails the case. Ignores the denials
        and refusals in ALLOWED, which correct bots get too. Keeps the reason of the first line that is recorded."""
        if no.word in ALLOWED or self.wrong:
            return
        hint = f"; {HINTS[no.word]}" if no.word in HINTS else ""
        self.wrong = no.text + hint + (explaining.of_denial(self.playing, no.line) if no.word == "guard" else "")

    def launch(self) -> None:
        """Starts the bot. If the bot is kept apart, waits for its namespaces, and lets the relay listen at its port
        there. Raises `Fails` if the bot ends meanwhile or the namespaces take too long, and `Stopped` after an
        interrupt. Raises `Fault` if the process that enforces the bot's limits can't be started."""
        self.kept = RunningBot(self.bot, self.slip, self.room.folder, self.limits.seconds, self.limits.megabytes, self.room.output.fileno(), self.world)
        end = time.monotonic() + LATEST
        while self.world is not None:
            listener = self.kept.listener()
            if listener is not None:
                return self.playing.relay.listen_at(listener)
            if how := self.kept.ended():
                raise Fails(self.end_reason(how))
            if self.stop.is_set():
                raise Stopped
            if time.monotonic() > end:
                raise Fails(f"the bot can't be started: the system took more than {LATEST:g} seconds to make the namespaces that isolate it; "
                            "use --at-once with a smaller number")

    def turn(self) -> None:
        """Runs the class for a few milliseconds, and checks what the bot did. Raises `Fails` if the bot has ended, has
        sent a wrong line, sends lines without pauses, or has too many connections. Raises `Stopped` after an
        interrupt."""
        self.playing.turn()
        if self.stop.is_set():
            raise Stopped
        if wrong := self.wrong or self.heard.conduct.wrong or self.connections_fault():
            raise Fails(wrong)
        if self.heard.conduct.is_flooding(len(self.nodes())):
            raise Fails(FLOODS)
        assert self.kept is not None
        how = self.kept.ended()
        if how:
            raise Fails(self.end_reason(how))

    def connections_fault(self) -> str:
        """Returns what is wrong with the number of the bot's connections, or an empty text if nothing is. The bot may
        have only some connections open at once, close only some by itself, and open only some in a minute."""
        nodes = len(self.nodes())
        relay, most = self.playing.relay, most_connections(nodes)
        if len(relay.callers) > most_open(nodes):
            return (f"the bot has {len(relay.callers)} connections open at once, and each takes a seat: a bot needs only one, and closes those that it "
                    "doesn't use")
        if relay.quits > most_quits(nodes):
            return (f"the bot closed {relay.quits} connections and connected again: a bot keeps its connection open until the class is over"
                    f"{IN_PIECES * bool(self.case.piece)}")
        if relay.connections(MINUTE) > most:
            return f"the bot connected more than {most} times in a minute: a bot keeps its connection open, and after the reply `busy` it waits a second"
        return ""

    def end_reason(self, how: str) -> str:
        """Returns a text for people: how the bot ended, and its last line of output. If it ended by itself or by a
        signal, the text also has what was being done to it at that time. `how` is `ended STATUS` or `killed REASON`.
        Raises `NotStarted` if the bot's command couldn't be run."""
        kind, _, what = how.partition(" ")
        # Only the reason why a command can't be run begins with the command.
        if kind == "killed" and what.startswith(f"{self.bot.words[0]}: "):
            raise NotStarted(f"the bot can't be started: {what}")
        text = f"the bot {end_in_words(how, self.limits.seconds)}" + (self.doing if kind == "ended" else "")
        last = last_line(self.room.output.fileno())
        return f"{text}; the last line of its output is: {last}" if last else text

    def until_stable(self, after: str = "") -> None:
        """Runs the class until it is stable, that is, no rule can be applied at any node. Raises `Fails` after the time
        limit. `after` names, for the error, what was done to the class before, unless it is empty."""
        end = time.monotonic() + self.limits.seconds
        while not self.playing.is_stable():
            if time.monotonic() > end:
                begun = f"after {after}, the network" if after else "the network"
                raise Fails(f"{begun} didn't become stable within {self.limits.seconds:g} seconds: it waits for {self.playing.waiting()}"
                            f"{self.playing.explain_silence(self.case.who)}{IN_PIECES * bool(self.case.piece)}"
                            f"{explaining.of_waiting(self.playing, self.case.who)}")
            self.turn()

    def until_greeted(self) -> None:
        """Runs the class until the bot's hello is granted. Raises `Fails` after the time limit."""
        end = time.monotonic() + self.limits.seconds
        while not self.heard.greeted:
            if time.monotonic() > end:
                raise self.no_hello()
            self.turn()

    def no_hello(self) -> Fails:
        """Returns the error to raise if no hello of the bot was granted within the time limit."""
        return Fails(f"no hello of the bot was granted within {self.limits.seconds:g} seconds{self.playing.explain_silence(self.case.who)}")

    def run_for(self, seconds: float) -> None:
        """Runs the class for `seconds` seconds."""
        end = time.monotonic() + seconds
        while time.monotonic() < end:
            self.turn()

    def until_greeted_again(self, before: int, what: str) -> None:
        """Runs the class until the bot has said hello more than `before` times. `what` says for the error, after the
        words `the bot's`, why the connection was lost. Raises `Fails` after the time limit."""
        self.doing = f", after its {what} ({AGAIN})"
        end = time.monotonic() + self.limits.seconds
        while self.heard.greeted == before:
            if time.monotonic() > end:
                raise Fails(f"the bot's {what}, and within {self.limits.seconds:g} seconds the bot didn't connect again and say hello ({AGAIN})")
            self.turn()
        self.doing = ON

    def close(self) -> None:
        """Ends the bot and the class, so that the class can't be run any longer. The counts of the attempt and
        `write_evidence` can still be used."""
        if self.kept is not None:
            self.kept.stop()
        self.playing.end()

    def write_evidence(self, folder: Path) -> None:
        """Makes a folder, and writes into it the lab, the script that repeats the run, the bot's lines with their
        replies, and the bot's output. If the program can run the script, also writes the page of the run. Raises
        `OSError` if the folder exists or can't be written, and `Fault` if the page can't be made."""
        folder.mkdir(parents=True)
        self.playing.write(folder)
        (folder / "output.txt").write_bytes(os.pread(self.room.output.fileno(), MOST_KEPT, 0))
        answer = call("script", folder / "lab.toml", folder / "script", folder / "journal")
        if answer.status == 0:
            (folder / "run.html").write_text(self.playing.own_page(folder, self.case.who), encoding="utf-8")
