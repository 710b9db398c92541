"""A class of several networks whose desk has ended: `attach` takes over the desks of its networks, and `run --resume`
also starts the servers that have ended. The *desk* of a network is the teacher's connection to its server. A network is
*down* if its server or its desk is gone, and its *alarm* is the text about that."""
from __future__ import annotations

import argparse
import os
import signal
import time
from pathlib import Path

from classroom.core.class_state import DOWN, ENDED
from classroom.core.classes import Class
from classroom.core.folders import Record
from classroom.core.program import CLASS, Fault
from classroom.run.member import Member, News
from classroom.run.several import Several, members_of, run_desk

PATIENCE = 60.0  # seconds in which a process that has lost its terminal has to leave the desks


def wait_for_desks(folder: Path, kept: Class) -> None:
    """Waits until no process holds the desks of the class in a folder. `kept` is the content of the folder's
    `class.json`. Asks a process that has lost its terminal to leave them. Raises `Fault` if it still has them after a
    minute, or if the process that holds them hasn't lost its terminal."""
    if not kept.desk.lives():
        return
    if not kept.left:
        raise Fault(f"{folder}: another process (number {kept.desk.number}) controls this class. Type your commands in its terminal. "
                    "Or close that terminal (don't type `end` there: that ends the class), and then type this command again")
    os.kill(kept.desk.number, signal.SIGUSR1)
    end = time.monotonic() + PATIENCE
    while kept.desk.lives():
        if time.monotonic() > end:
            raise Fault(f"{folder}: process {kept.desk.number} was asked to leave the desks of this class, but hasn't left them. "
                        f"End it by `kill -9 {kept.desk.number}`, and type this command again")
        time.sleep(0.05)


def begin(member: Member, several: Several, again: bool, starts: bool) -> None:
    """Takes the desk of the network `member` of a class. If the network's server has ended, starts the server first if
    `starts` is set, and otherwise marks the network as down and prints its alarm. If the network's run was ended on
    purpose, only marks the network as ended, unless both `starts` and `again` are set. `several` is the desk of the
    class."""
    record = Record.read(member.folder)
    member.has_desk = record is not None  # A process that takes the desk writes the record.
    if record is not None and record.ended and not record.goes_on() and not (starts and again):
        member.status = ENDED
    elif starts or record is not None and record.server.lives():
        member.start(several.hear, several.note_end)
    else:
        member.status = DOWN
        member.alarm = f"its server has ended; {member.remedy()}"
        several.say(several.alarm(member))


def hold_again(words: argparse.Namespace, folder: Path) -> int:
    """Takes over the desks of the class in a folder, and continues the class to its end. Returns the exit status.
    `words` are the arguments of `attach` or of `run --resume`. Raises `Fault` if another process keeps the desks, or if
    all runs of the class were ended and `--again` isn't given."""
    kept = Class.read(folder)
    assert kept is not None
    wait_for_desks(folder, kept)
    # Only `run` has the options --resume and --again.
    starts, again = hasattr(words, "resume"), getattr(words, "again", False)
    records = [Record.read(folder / network.name) for network in kept.networks]
    if all(record is not None and record.ended and not record.goes_on() for record in records) and not again:
        raise Fault(f"{folder}: all runs of this class were ended. To continue them, type: {CLASS} run --resume {folder} --again")
    if words.page is None and kept.page:
        words.page = kept.page
    news = News()
    members = members_of(folder, kept.networks, words, news)

    def start(several: Several) -> None:
        """Takes the desk of each network, or notes why it can't. `run --resume` also starts the servers that have
        ended."""
        for member in members:
            begin(member, several, again, starts)

    return run_desk(folder, members, news, words, start)
