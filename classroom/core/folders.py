"""The folders of runs: making a new one, the record of a run that continues, and the lab and journal of given runs.

A *run* is a class with one network. The *lab* of a run defines the network and its students, and the *journal* has the
run's events. The *record* here is the file `run.json` in the run's folder. The *desk* is the teacher's connection to
the server. A *door* is a port at which students on other machines connect.
"""
from __future__ import annotations

import json
import os
import re
from dataclasses import asdict, dataclass, field
from datetime import datetime
from pathlib import Path

from classroom.core import plain
from classroom.core.program import LAST_PORT, Fault

MOST_SECONDS = 1e9
Run = tuple[Path, Path]  # the lab and the journal of a run
RECORD = "run.json"
CLASS = "class.json"  # the name of a file in the folder of a class of several networks
STATE = "state.json"  # the name of a file in the folder of a run that belongs to a class
LAYOUT = "layout.json"  # the name of the file with the layout of a network, if that layout needed a search
FILES = (RECORD, f"{RECORD}.new", STATE, f"{STATE}.new", LAYOUT, f"{LAYOUT}.new", "lab.toml", "journal", "journal.lab", "journal.torn",
         "server.txt", "run.txt", "audit.txt", "marks.txt", "marks.json", "run.html")


def new_folder(into: Path, lab: Path) -> Path:
    """Makes a new folder below `into` that no other user can read, and returns it. The folder's name has the minute and
    the name of the lab, but in the folder of a class only the lab's name. If there is such a folder already, the name
    gets a number at its end. Raises `Fault` if the folder can't be made."""
    stamp = lab.stem if (into / CLASS).is_file() else f"{datetime.now():%Y-%m-%dT%H%M}-{lab.stem}"
    for number in range(1, 1000):
        folder = into / (stamp if number == 1 else f"{stamp}-{number}")
        try:
            folder.mkdir(0o700, parents=True)
            return folder
        except FileExistsError:
            continue
        except OSError as error:
            raise Fault(f"{folder}: this folder can't be made: {error.strerror}. Name another place for it by --into FOLDER", 4) from None
    raise Fault(f"{into}: in this folder the names {stamp} to {stamp}-999 are all taken. Name another folder by --into FOLDER", 4)


def of_folder(folder: Path) -> Run:
    """Returns the paths of the lab and the journal in the folder of a run. Raises `Fault` if one of them is missing, or
    if a file that a run reads or writes isn't a plain file."""
    for name in FILES:
        plain.require_plain(folder / name)
    missing = [name for name in ("lab.toml", "journal") if not (folder / name).is_file()]
    if missing:
        raise Fault(f"{folder}: this isn't the folder of a run, since it has no file {' and no file '.join(missing)}")
    return folder / "lab.toml", folder / "journal"


def title(lab: Path, journal: Path, name: str = "") -> str:
    """Returns a title for a run: the lab's name, or `name` if it is given, and the day of the run. The day is that in
    the name of the run's folder, or in a class that in the name of the class's folder. The lab's name is from
    `run.json`, or else from the folder's name. If the files aren't in the folder of a run, the title has the name of
    the lab's file and the day of the journal's last change."""
    own = lab.resolve().parent
    in_class = (own.parent / CLASS).is_file()
    found = re.fullmatch(r"(?P<day>\d{4}-\d\d-\d\d)T\d{4}-(?P<lab>.+)", (own.parent if in_class else own).name)
    if found is None or lab.name != "lab.toml":
        return f"{name or lab.stem}, {datetime.fromtimestamp(journal.stat().st_mtime):%Y-%m-%d}"
    record = Record.read(lab.parent)
    return f"{name or (Path(record.lab).stem if record else own.name if in_class else found['lab'])}, {found['day']}"


@dataclass(frozen=True)
class Process:
    """A process, identified by its number and its start time, since numbers are used again."""

    number: int
    start: str

    @staticmethod
    def of(number: int) -> Process:
        """Returns the process that has the number now. The start time is empty if there is no such process or it has
        ended."""
        try:
            stat = Path(f"/proc/{number}/stat").read_text(encoding="utf-8", errors="replace")
        except OSError:
            return Process(number, "")
        # In `stat` (proc(5)), the state is the field 3, so `rest` begins with the field 4. The field 22 is the start
        # time. The state Z is that of a process that has ended.
        state, *rest = stat.rpartition(") ")[2].split()
        return Process(number, "" if state == "Z" else rest[18])

    def lives(self) -> bool:
        """Returns whether the process is still running, rather than a later one with the same number."""
        return self.start != "" and Process.of(self.number) == self


@dataclass(frozen=True)
class Record:
    """The file `run.json` in the folder of a run, by which other programs can reach the run and continue it."""

    lab: str  # The path of the lab's file with which the run was begun.
    port: int  # The students' port.
    desk: int  # The teacher's port, or 0.
    page: int | None  # The port of the page that shows the run.
    close: str  # How steps are closed: the name of a daemon, such as `when-idle:2`.
    until: str | None  # `stable` if the run ends at a stable configuration.
    run: Process  # The process that holds the teacher's desk.
    server: Process
    play: int | None = None  # The port of the page on which students play.
    left: bool = False  # Whether the terminal of `run` was closed.
    ended: bool = False  # Whether the run ended as it should.
    stand_in: float | None = None  # seconds that the class waits for a node before the house plays it
    looks: str | None = None  # The token in the address at which people watch the page.
    played: list[str] = field(default_factory=list)  # the names of the students for whom the house plays at once
    ends: str | None = None  # When the lesson ends, as a date and a time.
    anonymous: bool = False  # Whether the run's pages show numbers in place of names.
    door: str | None = None  # The folder of the door that leads to the run.

    @staticmethod
    def read(folder: Path) -> Record | None:
        """Returns the record in a folder, or None if the file is missing or can't be read, or if one of its values
        isn't valid."""
        try:
            it = json.loads(plain.read(folder / RECORD, plain.MOST_KEPT))
            made = Record(**it | {"run": Process(**it["run"]), "server": Process(**it["server"])})
            return made if made.is_valid() else None
        except (Fault, ValueError, KeyError, TypeError, RecursionError):
            return None

    def is_valid(self) -> bool:
        """Returns whether all values are valid. They are checked because another user may have written the file. Texts
        have to be strings without NUL, and `looks` has to be ASCII. `until` has to be `stable` or None, `anonymous` a
        bool, and `stand_in` above 0 and below MOST_SECONDS. Ports are at most LAST_PORT, and the numbers of processes
        are integers."""
        texts = [self.lab, self.close, self.run.start, self.server.start, *self.played, *filter(None, (self.until, self.looks, self.ends, self.door))]
        numbers = [self.port, self.desk, *(each for each in (self.page, self.play) if each is not None)]
        seconds = 1.0 if self.stand_in is None else self.stand_in
        return (
            all(isinstance(text, str) and b"\0" not in os.fsencode(text) for text in texts) and (self.looks or "").isascii()
            and isinstance(self.anonymous, bool) and self.until in (None, "stable") and type(seconds) in (int, float) and 0 < seconds < MOST_SECONDS
            and all(type(number) is int and 0 <= number <= LAST_PORT for number in numbers)
            and all(type(each.number) is int for each in (self.run, self.server))
        )

    @staticmethod
    def default(folder: Path, port: int) -> Record:
        """Returns a record for a run's folder without `run.json`; the first runs of version 0.9.0 left such folders.
        The record's port for students is `port`, and its other values are those with which a run begins by default."""
        nobody = Process(number=0, start="")
        return Record(lab=str(folder / "lab.toml"), port=port, desk=0, page=None, close="when-idle:2", until=None, run=nobody, server=nobody)

    def write(self, folder: Path) -> None:
        """Writes the record as `run.json` into the folder. If the record can't be written, as on a full disk, the old
        file stays, and no error is raised."""
        new = folder / f"{RECORD}.new"
        try:
            new.write_text(json.dumps(asdict(self)) + "\n", encoding="utf-8")
            new.replace(folder / RECORD)
        except OSError:
            new.unlink(missing_ok=True)

    def goes_on(self) -> bool:
        """Returns whether the process that has the teacher's desk, or the server, is still running."""
        return self.run.lives() or self.server.lives()


def going(into: Path, lab: Path) -> tuple[Path, Record] | None:
    """Returns the folder and the record of a run of the lab in the file `lab` that is still going on. If there is none,
    returns those of the lab's last run, unless that ended as it should. Otherwise returns None. `into` is the folder
    with all runs, in which the folder of a class has runs too."""
    files = sorted([*into.glob(f"*/{RECORD}"), *into.glob(f"*/*/{RECORD}")], key=lambda file: file.parent.stat().st_mtime)
    records = [(file.parent, Record.read(file.parent)) for file in files]
    same = [(folder, record) for folder, record in records if record is not None and record.lab == str(lab.resolve())]
    live = [(folder, record) for folder, record in same if record.goes_on()]
    return next(iter(live or [pair for pair in same[-1:] if not pair[1].ended]), None)
