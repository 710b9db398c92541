"""Gives a student another key while the class goes on: kills the host, and starts a new one that continues from its
journal.

The *host* is the server of a class, and the *desk* is the teacher's connection to it. A *slip* is a file with a
student's key, and the *house* is a program that plays for absent students. The *record* is what the host keeps about
connections and requests. The keys of a running server can't change. A killed host doesn't report that the class is
over, so programs connect again. All granted events are in the journal, because each line was synced.
"""
from __future__ import annotations

import os
import signal
from pathlib import Path

from classroom.core import lab as labs
from classroom.core import record
from classroom.core.folders import Record
from classroom.core.program import Fault
from classroom.run import server
from classroom.run.desk import Desk
from classroom.run.heard import Heard
from classroom.setup import rekey

PATIENCE = 60.0  # seconds that a killed process has to disappear


def renew(folder: Path, lab: labs.Lab, it: server.Server, desk: Desk, name: str) -> None:
    """Changes the key of the student `name` in the lab and the slips, and kills the server `it`. `folder` is that of
    the run. Starts a new one, whose values replace those in `it`. The caller has to connect to the desk again. Raises
    `ValueError` if there is no such student. Raises `Fault` if the key can't be changed, or if the server doesn't end
    or can't be started again."""
    if name not in lab.without_house().students:
        raise ValueError(f"there is no student {name}. The students are: {', '.join(lab.without_house().students)}")
    kept = Record.read(folder)
    if kept is None:
        raise Fault(f"{folder}: the file run.json is missing or damaged, so the server can't be restarted, and the key isn't changed. "
                    "End the run, and change the key by `class key`")
    changed = rekey.change(str(folder), name)
    lab.students[name] = changed.key
    desk.tell(f"{name} has a new key. The new slip is {changed.slip}; the server restarts")
    desk.read()
    os.kill(it.process.number, signal.SIGKILL)
    if not it.has_ended(PATIENCE):
        raise Fault(f"the server (process {it.process.number}) was killed because of the new key, but hasn't ended yet. "
                    "Wait until this process has ended, and then resume the run")
    desk.client.hang_up()
    desk.known.rewind()
    it.replace_by(server.start(folder, folder / "lab.toml", it.port, folder / "journal", None, kept))
    follow(folder, lab, it, desk)


def follow(folder: Path, lab: labs.Lab, it: server.Server, desk: Desk) -> None:
    """Makes the desk follow the record in the run's folder from its beginning again, as the new server `it` writes it.
    That a student has come already isn't forgotten. Makes the desk's list of connections and the house use the port of
    this server."""
    if desk.heard is not None:
        came, desk.heard = desk.heard.came, Heard(folder / record.FOLDER, lab)
        desk.heard.came = came
    if desk.connected is not None:
        desk.connected.port = it.port
    if desk.house is not None:
        desk.house.port = it.port
