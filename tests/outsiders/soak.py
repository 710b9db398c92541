"""Outsiders beside a class of bots, or beside a host alone, by hand.

    python3 -B -m tests.outsiders.soak class [SECONDS [RATE]]
    python3 -B -m tests.outsiders.soak host [SECONDS [RATE]]

Two outsiders (clients without a key) each make RATE connections a second (1,000 without a number) at both ports, of all
kinds. `class` has fifteen bots under three daemons, which decide when steps are closed. The daemons take turns, for ten
minutes in all. Twelve of the bots are those of `examples/bot.py`, and three connect and disconnect. All play to the
end, and the output has the times that these three wait for a seat and for a reply. `host` prints, each minute for an
hour, the number of a host's threads and descriptors and its memory. At the end these are as at the beginning.
"""
from __future__ import annotations

import contextlib
import itertools
import os
import re
import subprocess
import sys
import tempfile
import threading
import time
from collections.abc import Callable
from dataclasses import dataclass, field
from pathlib import Path

from classroom.client import Client, Closed, Denied, Over, Refused
from tests.common.hosting import HOST, Host, audit, lab_of, let_in
from tests.common.lines import BYE, hello, look
from tests.common.preload import LIMIT, PROGRAM, TOP, fail
from tests.outsiders.churn import Held
from tests.outsiders.load import Outsiders

SECONDS = {"class": 600.0, "host": 3600.0}
RATE = 1000
DAEMONS = ("synchronous", "central", "random:0.5")
STUDENTS, COMING = 15, 3  # the number of bots, and how many of them connect and disconnect
SHAKE = 10.0  # seconds after which the class is disturbed again
LOOKS = 30  # the number of looks of a bot that comes and goes
ROUND = 60.0  # seconds after which a host's figures are printed
WARM = 20.0  # seconds of load before a host's first figures
REST = 15.0  # seconds that the load's last connections may need to end


@dataclass
class Waits:
    """The waiting times of clients, in seconds."""

    seats: list[float] = field(default_factory=list)
    replies: list[float] = field(default_factory=list)

    def __str__(self) -> str:
        """Returns a line about the waiting times."""
        return "; ".join(waits_line(name, found) for name, found in vars(self).items())


def waits_line(name: str, found: list[float]) -> str:
    """Returns a line about the waiting times `found`. `name` names what was waited for, such as `seats`."""
    each = sorted(found)
    if not each:
        return f"no waits for {name}"
    late = sum(wait > 1 for wait in each)
    return (f"{len(each)} waits for {name}: {each[len(each) // 2]:.3f} seconds in the middle, nine in ten below "
            f"{each[len(each) * 9 // 10]:.3f}, at most {each[-1]:.2f}, {late} longer than one")


def lab_of_bots(room: Path) -> Path:
    """Writes a lab with a cycle in which each student owns a node, and returns its path."""
    rows = ["events = 100000", f"sessions = {STUDENTS + 1}"]
    rows += [f"links = {[[node, node % STUDENTS + 1] for node in range(1, STUDENTS + 1)]}", '[teacher]\nname = "tess"\nkey = "chalk"']
    for node in range(1, STUDENTS + 1):
        rows += [f'[[student]]\nname = "s-{node}"\nkey = "key-{node}"\n[[node]]\nid = {node}\nowner = "s-{node}"']
    lab = room / "bots.toml"
    lab.write_text("\n".join(rows) + "\n", encoding="utf-8")
    return lab


class Class:
    """A class with a daemon, and its bots."""

    def __init__(self, lab: Path, daemon: str, waits: Waits) -> None:
        """Starts the class of a lab under a daemon. Appends the waiting times of its clients to `waits`."""
        self.room, self.waits = lab.parent, waits
        words: list[str | Path] = ["run", lab, "--into", self.room / "runs", "--port", "20000", "--daemon", daemon, "--typed", "--beside"]
        self.process = subprocess.Popen(
            [sys.executable, "-B", TOP / "class", *words], stdin=subprocess.PIPE, stdout=subprocess.PIPE, text=True,
            env={**os.environ, "MML_HOST": str(HOST), "MML_PROGRAM": str(PROGRAM)},
        )
        self.lines: list[str] = []
        # Whether the class may end now, and the connections that were ended before that, with the errors.
        self.is_ending, self.cut = False, list[str]()
        threading.Thread(target=self.read, daemon=True).start()
        self.until(lambda: any(line.startswith("commands: ") for line in self.lines))
        text = "\n".join(self.lines)
        self.port, self.desk = (int(re.findall(rf"(?m)^{what} (\d+), ", text)[0]) for what in ("port", "desk at port"))

    def read(self) -> None:
        """Reads the lines that the class prints, until its end."""
        for line in self.process.stdout or ():
            self.lines.append(line.rstrip("\n"))

    def until(self, find: Callable[[], bool]) -> None:
        """Waits until a function returns true. Fails after a time limit, or if the class has ended."""
        end = time.monotonic() + LIMIT
        while not find():
            if time.monotonic() > end or self.process.poll() is not None:
                fail(f"soak: the class: {self.lines[-5:]}")
            time.sleep(0.1)

    def is_stable_after(self, text: str) -> bool:
        """Returns whether the class has printed a line about a stable configuration after a line with this text."""
        later = itertools.dropwhile(lambda line: text not in line, self.lines)
        return any("; stable; " in line for line in later)

    def type(self, line: str) -> None:
        """Types a line at the class's desk."""
        assert self.process.stdin is not None
        self.process.stdin.write(line + "\n")
        self.process.stdin.flush()

    def bot(self, node: int) -> subprocess.Popen[str]:
        """Starts a bot of the examples for the student of a node. Returns its process."""
        slip = self.room / f"{self.port}-{node}.slip"
        slip.write_text(f"port {self.port}\nname s-{node}\nkey key-{node}\nnodes {node}\n", encoding="utf-8")
        return subprocess.Popen([sys.executable, TOP / "examples/bot.py", slip], stdout=subprocess.DEVNULL, stderr=subprocess.PIPE, text=True)

    def comes_and_goes(self, node: int) -> None:
        """Acts as a bot of the student of a node that plays for a moment, says bye, and connects again, until the class
        is over. Notes in `cut` if its connection is ended before that."""
        with contextlib.suppress(Over):
            while self.process.poll() is None:
                me = self.greet(node)
                try:
                    for _ in range(LOOKS):
                        self.plays(me, node)
                        time.sleep(0.1)
                    me.bye()
                except (ConnectionError, Closed) as error:
                    if not self.is_ending:
                        self.cut.append(f"s-{node}: {error!r}")
                me.hang_up()

    def greet(self, node: int) -> Client:
        """Connects as the student of a node, again and again until a seat is free. Appends the seconds that this took
        to the waiting times. Returns the connection. Raises `Over` if the class has ended."""
        begun = time.monotonic()
        while True:
            try:
                me = Client(self.port, f"s-{node}", f"key-{node}")
                self.waits.seats.append(time.monotonic() - begun)
                return me
            except Over:
                raise
            except (Closed, Refused, ConnectionError):
                if self.process.poll() is not None:
                    raise Over("the class has ended") from None

    def plays(self, me: Client, node: int) -> None:
        """Looks at the node once, and asks for the enabled move if there is one. Notes how long the reply to the look
        took. Ignores a denial of the move."""
        begun = time.monotonic()
        seen = me.look(node)
        self.waits.replies.append(time.monotonic() - begun)
        if seen.rule is not None and seen.chosen is None:
            with contextlib.suppress(Denied):
                me.move(seen)

    def plays_on(self, seconds: float, rate: int) -> str:
        """Runs the class with its bots for so many seconds beside two outsiders, and then until it is stable. Returns a
        line about it. Fails if the class or a bot ends with an error, or a connection was ended after its hello."""
        bots = [self.bot(node) for node in range(COMING + 1, STUDENTS + 1)]
        coming = [threading.Thread(target=self.comes_and_goes, args=[node]) for node in range(1, COMING + 1)]
        for each in coming:
            each.start()
        with Outsiders("all", rate, [self.port, self.desk]), Outsiders("all", rate, [self.port, self.desk]):
            end = time.monotonic() + seconds
            while (left := end - time.monotonic()) > 0:
                self.type("shake 5")
                time.sleep(min(SHAKE, left))
            # After this fault the class isn't stable, so the line that is awaited comes later. The faults of a
            # `shake` have one line together, in which their registers aren't printed.
            self.type(f"fault {STUDENTS} null true")
            self.until(lambda: self.is_stable_after(f"fault at node {STUDENTS}: p null, m true; "))
            self.is_ending = True
            self.type("end\nend")  # The class asks for a second `end` if it isn't stable any more.
            statuses = [bot.wait(LIMIT) for bot in bots]
            for each in coming:
                each.join()
        status = self.process.wait(LIMIT)
        steps = sum(line.startswith("configuration ") for line in self.lines)
        errors = "".join(bot.stderr.read() for bot in bots if bot.stderr)
        if status not in (0, 5) or any(statuses):  # The status 5 means that the run is done, with warnings.
            fail(f"soak: the class ends with {status}, its bots with {statuses} {errors}: {self.lines[-8:]}")
        if self.cut:
            fail(f"soak: cut off after a hello: {self.cut}")
        return f"{steps} configurations, {len(bots)} bots and {len(coming)} that come and go played to the end"


def beside_a_class(room: Path, seconds: float, rate: int) -> None:
    """Runs a class under each daemon in turn beside outsiders who come at this rate. Prints the waiting times."""
    for daemon in DAEMONS:
        waits = Waits()
        it = Class(lab_of_bots(room), daemon, waits)
        print(f"{daemon}: {it.plays_on(seconds / len(DAEMONS), rate)}; {waits}", flush=True)


def beside_a_host(room: Path, seconds: float, rate: int) -> None:
    """Runs a host for these seconds beside outsiders who come at this rate. After each round, a load of ROUND seconds
    and a rest, prints the host's threads, descriptors and memory, and the waiting times of a client with a key. Fails if
    the host has more of these at the end than after the warm-up, if it ends with another status than 0 or 4, or if its
    journal isn't legal."""
    lab, journal, waits = lab_of(room, 16, 100_000), room / "journal", Waits()
    with Host(lab, 0, 0, journal, room / "record") as host:
        def load(for_so_long: float) -> None:
            """Runs two outsiders for so many seconds. Beside them a client with a key connects each second. Then waits
            until the last connections have ended."""
            with Outsiders("all", rate, [host.port, host.desk]), Outsiders("all", rate, [host.port, host.desk]):
                end = time.monotonic() + for_so_long
                while time.monotonic() < end:
                    begun = time.monotonic()
                    caller, _ = let_in(host.port, hello("ana"))
                    waits.seats.append(time.monotonic() - begun)
                    begun = time.monotonic()
                    caller.ask(look("ana"))
                    waits.replies.append(time.monotonic() - begun)
                    caller.ask(BYE)
                    caller.close()
                    time.sleep(1)
            time.sleep(REST)

        load(WARM)
        first, rounds = Held.of(host.process.pid), 0
        end = time.monotonic() + seconds
        while (left := end - time.monotonic()) > 0:
            load(min(ROUND, left))
            rounds += 1
            print(f"{rounds}: {Held.of(host.process.pid)}; {waits}", flush=True)
        last = Held.of(host.process.pid)
        ended = host.dismiss(let_in(host.desk, hello("tess"))[0])
    audit(lab, journal, 0)
    # The status is 4 if entries of the record couldn't be written, because its file had reached its limit.
    if not last.is_as(first) or ended.status not in (0, 4):
        fail(f"soak: a host holds {last}, first {first}, and ends with {ended}")
    print(f"host: first {first}, last {last}; {waits}; it ends with {ended.status}")


def main() -> None:
    """Runs outsiders beside a class or beside a host, as the arguments say."""
    what, *numbers = sys.argv[1:] or ["class"]
    seconds = float(numbers[0]) if numbers else SECONDS[what]
    rate = int(numbers[1]) if numbers[1:] else RATE
    with tempfile.TemporaryDirectory() as name:
        (beside_a_class if what == "class" else beside_a_host)(Path(name), seconds, rate)


if __name__ == "__main__":
    main()
