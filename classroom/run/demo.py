"""`./class demo`: a whole class on this machine, with programs that play the students. A *slip* is a file with what a
student's program needs to connect."""
from __future__ import annotations

import argparse
import re
import signal
import subprocess
import sys
import tempfile
from pathlib import Path

from classroom.core import lab as labs
from classroom.core.program import TOP, Fault
from classroom.run import server
from classroom.setup import slips
from classroom.setup.slips import Way

LAB = TOP / "examples/cycle.toml"
WORDS = ("--close", "every:0.5", "--until", "stable", "--beside", "--into")
SIGNALS = (signal.SIGINT, signal.SIGTERM)


def start_bots(lab: labs.Lab, port: int, room: Path) -> list[subprocess.Popen[bytes]]:
    """Writes the slips of a lab into the folder `slips` in `room`, and starts a bot for each student, which connects to
    the port. Returns the processes. Raises `Fault` if a slip can't be written."""
    slips.write_all(lab, Way(port, "demo"), room / "slips")
    return [
        subprocess.Popen([sys.executable, TOP / "examples/bot.py", room / "slips" / f"{name}.slip"],
                         stdin=subprocess.DEVNULL, stdout=subprocess.DEVNULL, stderr=subprocess.DEVNULL)
        for name in lab.students
    ]


def demo(words: argparse.Namespace) -> int:
    """Runs the cycle of `examples/` by `class run`, with a bot for each of its four students, until it is stable.
    Passes on the signals in SIGNALS to this run. Returns the exit status of `run`. Raises `Fault` if there are no
    `examples/`, or if the server isn't built."""
    if not LAB.exists():
        raise Fault("the archive for students has no finished bots, so there is nothing to show. To try your own bot, type: ./class practise 'python3 bot.py'")
    server.require_built(False)
    lab = labs.read(LAB)
    bots: list[subprocess.Popen[bytes]] = []
    print(f"this demo runs a cycle of {len(lab.nodes)} nodes after a fault, with the bots of {len(lab.students)} students", flush=True)
    run = subprocess.Popen(
        [sys.executable, TOP / "class", "run", LAB, *WORDS, words.into], stdin=subprocess.DEVNULL, stdout=subprocess.PIPE,
        text=True, start_new_session=True,  # In a session of its own, the run gets a Ctrl-C only once, from the function below.
    )
    for number in SIGNALS:
        signal.signal(number, lambda number, _: run.send_signal(number))
    assert run.stdout is not None
    with tempfile.TemporaryDirectory() as room, run.stdout:
        for line in run.stdout:
            print(line, end="", flush=True)
            told = re.match(r"port (\d+), ", line)
            if told:
                bots += start_bots(lab, int(told[1]), Path(room))
        status = run.wait()
        for bot in bots:
            try:
                bot.wait(10)
            except subprocess.TimeoutExpired:
                bot.kill()
                bot.wait()
    return status
