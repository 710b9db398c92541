"""`./class attach`: takes the desk of a class whose `run` has ended or has lost its terminal, and continues the run.
The *desk* is the teacher's connection to the server, with the terminal at which commands are typed."""
from __future__ import annotations

import argparse
import os
import signal
import time
from pathlib import Path

from classroom.core import lab as labs
from classroom.core.classes import is_class
from classroom.core.folders import Record, of_folder
from classroom.core.program import CLASS, Fault
from classroom.run import class_again
from classroom.run.clock import end_of
from classroom.run.closing import kept_daemon
from classroom.run.holding import Running, to_the_end
from classroom.run.run import add_desk_words, check_stand_in
from classroom.run.server import Server
from classroom.run.teller import Teller

PATIENCE = 60.0  # seconds that a `run` without its terminal has to leave the desk


def add_words(words: argparse.ArgumentParser) -> None:
    """Adds the options of `attach` to its parser."""
    words.add_argument("folder", metavar="FOLDER", help="the folder of the run or of the class")
    add_desk_words(words)
    words.set_defaults(work=attach)


def wait_for_desk(folder: Path, record: Record) -> None:
    """Waits until no process has the desk of the run in a folder. `record` has the values of the folder's `run.json`.
    Asks a process that has lost its terminal, by a signal, to leave the desk. Raises `Fault` if this process still has
    the desk after a minute, or if the process that has the desk hasn't lost its terminal."""
    holder = record.run
    if holder.lives() and not record.left:
        raise Fault(f"{folder}: another process (number {holder.number}) controls this run. Type your commands in its terminal. "
                    "Or close that terminal (don't type `end` there: that ends the run), and then type this command again")
    if holder.lives():
        os.kill(holder.number, signal.SIGUSR1)
        end = time.monotonic() + PATIENCE
        while holder.lives():
            if time.monotonic() > end:
                raise Fault(f"{folder}: process {holder.number} was asked to leave the desk of this run, but hasn't left it. "
                            f"End it by `kill -9 {holder.number}`, and type this command again")
            time.sleep(0.05)


def attach(words: argparse.Namespace) -> int:
    """Takes the desk of the run or class in the folder that the arguments name, and continues it to its end. Returns
    the exit status. Raises `Fault` if the server has ended, if another process keeps the desk, or if the options can't
    be used in this run."""
    folder = Path(words.folder)
    if is_class(folder):
        return class_again.hold_again(words, folder)
    lab_file, _ = of_folder(folder)
    record = Record.read(folder)
    if record is None or not record.server.lives():
        again = " --again" if record is not None and record.ended else ""
        raise Fault(f"{folder}: the server of this run has ended. To continue the run, type: {CLASS} run --resume {folder}{again}")
    lab = labs.read(lab_file)
    check_stand_in(words, lab, lab_file)
    wait_for_desk(folder, record)
    run = Running(folder, Path(record.lab), lab, words.close or kept_daemon(folder, record), words.until or record.until,
                  words.page or record.page, words.typed, Teller(folder), words.play or record.play,
                  is_continued=True, stand_in=words.stand_in or record.stand_in, looks=record.looks, played=record.played,
                  ends=end_of(words.ends, record.ends), anonymous=words.anonymous or record.anonymous,
                  door=record.door)
    it = Server(record.server, record.port, record.desk, hosted=True, output=folder / "server.txt")
    run.tell(f"port {it.port}, and port {it.desk} for the desk; folder {folder}")
    return to_the_end(run, lambda: it)
