"""The desk of a run, from its greeting to the end of the run. `run` uses this module, and so does every command that
continues a run.

The *desk* is the teacher's connection to the server. The *house* is a program that plays for absent students.
`run.json` in the folder of a run is its *record*, by which other processes find it. A server is *hosted* if it is `mml
host`, which has a port for the desk and ends after the teacher's bye. An exit status of None means that the run
continues without this process.
"""
from __future__ import annotations

import contextlib
import os
import queue
import signal
import sys
import threading
from collections.abc import Callable
from dataclasses import dataclass, field, replace
from datetime import datetime
from functools import cached_property
from pathlib import Path
from typing import Any

from classroom.client import Closed, Denied, Over, Refused
from classroom.core import lab as labs
from classroom.core import record
from classroom.core.classes import is_class
from classroom.core.folders import Process, Record, title
from classroom.core.program import CLASS
from classroom.core.shown_names import ShownNames
from classroom.core.statuses import FAILED, WARNED
from classroom.pages import by_hand, kept_layout, projector
from classroom.run import letting, renewing, server
from classroom.run.attend import TICK, DiskRoom, attend
from classroom.run.clock import Clock
from classroom.run.closing import Closing, spelled
from classroom.run.connected import Connected
from classroom.run.desk import Desk
from classroom.run.ending import finish, put_back
from classroom.run.heard import Heard
from classroom.run.house import WAITS, House
from classroom.run.state_file import StateFile
from classroom.run.taking import Left, take_desk
from classroom.run.teller import READY, TO_ACT, TO_CONTINUE, TO_LOOK, TO_PLAY, Teller, is_private
from classroom.run.typed import HELP, HUNG, LEAVE, NOW, Terminal, Typed, read_lines

LATE = 10.0  # seconds after which a line says that `run` waits for the server's end
SIGNALS = {signal.SIGINT: NOW, signal.SIGTERM: NOW, signal.SIGHUP: HUNG, signal.SIGUSR1: LEAVE}


@dataclass
class Running:
    """A run, with the options of its desk and with its pages."""

    folder: Path
    lab_file: Path  # the lab from which the run was started, not its copy in the folder
    lab: labs.Lab
    close: Closing
    until: str | None  # `stable` if the run ends at the first stable configuration
    page: int | None  # the port of the page for the projector, if the run has one
    takes_lines: bool  # Whether commands are read from standard input even if it isn't a terminal.
    tell: Teller
    play: int | None = None  # the port of the page on which students play, if the run has one
    is_continued: bool = False  # Whether the run is one that began earlier and continues.
    by_number: bool = False  # Whether the server was started for a number of connections.
    stand_in: float | None = None  # seconds that the class waits for a node before the house plays it
    looks: str | None = None  # The token in the address at which people watch the page, if the run had one already.
    played: list[str] = field(default_factory=list)  # the names of the students for whom the house plays at once
    ends: datetime | None = None  # when the lesson ends
    anonymous: bool = False  # Whether the pages show numbers in place of names.
    door: str | None = None  # The folder of the door that leads to the run.
    typed: Typed = field(default_factory=queue.SimpleQueue)  # the queue of typed lines
    pages: projector.Pages | None = None  # the server of the pages for the projector and for the teacher
    hands: by_hand.PlayServer | None = None  # the server of the page on which students play
    terminal: Terminal | None = None  # the terminal at which lines are typed, if there is one

    def record(self, it: server.Server) -> Record:
        """Returns the record to write into the folder of the run while it continues on the server `it`."""
        page, looks = (self.pages.server_port, self.pages.looks) if self.pages else (self.page, self.looks)
        play = self.hands.server_port if self.hands else self.play
        return Record(str(self.lab_file.resolve()), it.port, it.desk, page, spelled(self.close), self.until,
                      Process.of(os.getpid()), it.process, play, stand_in=self.stand_in, looks=looks, played=self.played,
                      ends=self.ends.isoformat() if self.ends else None, anonymous=self.anonymous,
                      door=self.door)

    @cached_property
    def names(self) -> ShownNames:
        """Returns the names that the pages of the run show for students."""
        return ShownNames.of(self.lab, self.anonymous)

    def is_in_class(self) -> bool:
        """Returns whether this is the run of one network of a class. In such a run, lines come from the class's
        desk."""
        return is_class(self.folder.absolute().parent)

    def update_record(self, **other: Any) -> None:
        """Changes these values of the record in the run's folder. Does nothing if the record is missing or isn't
        valid."""
        record = Record.read(self.folder)
        if record is not None:
            replace(record, **other).write(self.folder)

    def title(self) -> str:
        """Returns the title of the run's page."""
        return title(self.folder / "lab.toml", self.folder / "journal", self.lab_file.stem)

    def note_hung(self) -> None:
        """Notes in the record that the terminal is closed, so that the run continues without one. Also writes a line
        that says how to control it again, which is kept in `run.txt`."""
        self.update_record(left=True)
        self.tell.around = str  # Lines are printed as they are, since no line is typed any longer.
        self.tell(f"the terminal was closed, and the run continues. To control it again, type: {CLASS} attach {self.folder}")


def open_desk(it: server.Server, run: Running) -> Desk:
    """Writes the record into the run's folder, connects to the desk of the server `it`, and returns the desk with its
    house, its clock and its watch on connections. Catches up with a run that continues. Raises `Left` if another
    process wants the desk, `Closed`, `Refused` or `Denied` if it can't be connected to, and `OSError` if the journal
    can't be opened."""
    run.record(it).write(run.folder)
    client = take_desk(it, run.lab.teacher, run.typed, run.tell, run.note_hung)
    desk = Desk(run.lab, run.folder / "journal", client, run.close, run.tell)
    desk.announcer.lost_journal = it.lost_journal
    recorded = (run.folder / record.FOLDER / "begun").is_file()  # Only a host keeps a record, whose folder has this file.
    names = run.hands.names if run.hands else {}
    desk.connected = Connected(it.port, run.lab.sessions - 1, desk.client.own_port(), names, not recorded)
    desk.heard = Heard(run.folder / record.FOLDER, run.lab) if recorded else None
    if run.lab.house_nodes() and it.hosted:
        desk.house = House(run.lab, it.port, run.stand_in, run.tell, run.played, lambda names: run.update_record(played=names))
    desk.names = run.names
    desk.clock = Clock(run.ends, datetime.now()) if run.ends else None
    if run.is_in_class():
        state = StateFile(run.folder, run.names)
        desk.keep_state = lambda: state.write_if_changed(desk)
    if run.is_continued:
        desk.catch_up()
    # If this process has started the server, students who were connected to an earlier one aren't connected any longer.
    if desk.heard and it.child is not None:
        desk.heard.begin()
    if desk.house and desk.heard and not desk.heard.came and desk.house.waits():
        run.tell(WAITS)
    if desk.house and desk.house.played:
        run.tell(desk.house.played_line())
    return desk


def renew(run: Running, it: server.Server, desk: Desk, name: str) -> None:
    """Gives the student `name` another key in the run. For that, replaces the server `it` by a new one, whose values
    `it` has afterwards, and connects the desk to it. Prints the key if only the teacher can read what is printed.
    Raises `ValueError` if there is no such student, and `Fault` if the class can't continue. Raises `Left`, `Closed` or
    `Denied` if the desk can't be connected to the new server."""
    renewing.renew(run.folder, run.lab, it, desk, name)
    if run.hands is not None:
        run.hands.students = it.port
    run.update_record(server=it.process, port=it.port, desk=it.desk)
    try:
        desk.use_connection(take_desk(it, run.lab.teacher, run.typed, run.tell, run.note_hung))
    except Refused as refused:
        raise Closed(str(refused)) from None  # The desk has no connection now. After `Closed` it connects again.
    run.tell(f"the class continues at port {it.port}; all programs have to connect again")
    if is_private(run.takes_lines):
        run.tell.print_only(f"the new key of {name} is {run.lab.students[name]}")


def show(pages: projector.Pages, desk: Desk, tell: Teller, typed: bool) -> None:
    """Starts to serve `pages`, for the projector and for the teacher, with what `desk` reads. Shows on them all lines
    that the run prints from now on. Prints their addresses. The address of the teacher's page is printed only if nobody
    else can read it. `typed` says whether a program types the commands, so that this program reads what is printed."""
    watch = desk.start_watch()

    def tell_address_to_act() -> None:
        """Prints the address to act at if only the teacher can read what is printed. Otherwise prints that it isn't
        shown."""
        if is_private(typed):
            tell.print_only(f"{TO_ACT} {pages.address_to_act}")
        else:
            tell(f"{TO_ACT}: its address is secret, and is printed only in a terminal")

    def renew() -> None:
        """Changes the address to act at, and prints it."""
        pages.renew()
        tell_address_to_act()

    desk.another_page = renew
    tell(f"{TO_LOOK} {pages.address}")
    tell_address_to_act()
    tell.also.append(lambda line: watch.present.put(line=desk.names.line(line)))
    pages.show(watch.present, tell)


def start_reading(run: Running) -> None:
    """Prints the commands, and starts a thread that reads typed ones. Does nothing if standard input isn't a terminal
    and the run doesn't take lines from elsewhere."""
    at_terminal = sys.stdin is not None and sys.stdin.isatty()
    if not at_terminal and not run.takes_lines:
        return
    run.tell(f"{READY}{HELP}")
    if at_terminal:
        run.terminal = Terminal([*(str(node.id) for node in run.lab.nodes), *run.lab.without_house().students])
        run.tell.around = run.terminal.around
    threading.Thread(target=read_typed, args=[run], daemon=True).start()


def read_typed(run: Running) -> None:
    """Queues typed lines until there are no more. In a run of a class, whose lines come from the class's desk, then
    queues HUNG, as if a terminal had been closed."""
    (run.terminal.read if run.terminal else read_lines)(run.typed.put)
    if run.terminal is None and run.is_in_class():
        run.typed.put(HUNG)


def queue_signals(typed: Typed) -> None:
    """Makes each signal in SIGNALS that comes from now on put its word there into `typed`, the queue of typed lines."""
    for number in SIGNALS:
        signal.signal(number, lambda number, _: typed.put(SIGNALS[signal.Signals(number)]))


def hold(run: Running, it: server.Server) -> int | None:
    """Runs the desk of the server `it` to the end of the run. Returns the exit status, or None if the run continues
    without this process, for example because another one takes over the desk."""
    try:
        desk = open_desk(it, run)
        if it.hosted:
            desk.another_key = lambda name: renew(run, it, desk, name)
        start_reading(run)
        if run.pages is not None:
            show(run.pages, desk, run.tell, run.takes_lines)
        if run.hands is not None:
            run.hands.show(it.port, run.tell)
            run.tell(f"{TO_PLAY} {run.hands.address}")
        for line in letting.page_lines(run.door, run.lab_file, run.pages.looks if run.pages else None):
            run.tell(line)
    except Left:
        run.tell("another process now controls this run, so this one ends")
        return None
    except (Closed, Refused, Denied) as error:
        run.tell(f"the desk can't be used, because no connection to it can be made: {error}")
        return give_up(it, run, LATE if isinstance(error, Over) else TICK)  # After `Over`, the server is about to end by itself.
    with contextlib.closing(DiskRoom(run.folder, it.process.number)) as room:
        why = attend(desk, it, run.until == "stable", run.typed, room, run.note_hung)
    return end_run(it, desk, why, run)


def give_up(it: server.Server, run: Running, seconds: float) -> int | None:
    """Gives up the server `it` of a run, because its desk can't be used. First waits at most `seconds` seconds for the
    server to end by itself. Then ends it if this process started it, and returns FAILED. If another process started the
    server and it still runs, prints how to control it, and returns None."""
    ended = it.has_ended(seconds)
    if it.child is None and not ended:
        leave(it, run)
        return None
    it.stop()
    run.tell(f"the server {'has ended by itself' if ended else 'was ended'}, {it.how()}")
    return FAILED


def leave(it: server.Server, run: Running) -> None:
    """Prints that the server `it` of a run continues without a desk, and how to control it again."""
    run.tell(f"the server (process {it.process.number}) keeps running, but nobody controls it. To control it again, type: {CLASS} attach {run.folder}")


def end_run(it: server.Server, desk: Desk, why: str, run: Running) -> int | None:
    """Ends the server `it` of a run, and prints how the run ended. `why` is the reason, a word that `attend` returns.
    Says bye at the desk, which ends a hosted server. After `died` says no bye, and after `left` only closes the
    connection, since another process takes over the desk. If the server has failed, saves the journal if its file is
    gone, and prints how to continue. Returns the exit status, or None if the server continues."""
    tell = run.tell
    if why == "left":
        desk.client.hang_up()
        tell("another process now controls this run, so this one ends")
        return None
    try:
        if why != "died":
            desk.client.bye()
    except (Closed, Refused, Denied) as error:
        tell(f"the connection to the server's desk is lost: {error}")
    if not it.hosted and why != "died":
        it.stop()
    elif not wait_for_server(it, run):
        leave(it, run)
        return None
    elif why == "died" or it.status() != 0 and not it.lacks_record():
        put_back(desk.known.journal, run.folder / "journal", tell)
        tell(f"the server has ended{' by itself' if why == 'died' and it.status() >= 0 else ''}, {it.how()}")
        tell(f"{TO_CONTINUE}{desk.announcer.go_on}")
        return FAILED
    for line in it.printed().splitlines():
        if line.startswith("host: "):
            tell(f"the server printed: {line.removeprefix('host: ')}")
    if it.lacks_record():
        tell("the record isn't complete, because not all of it could be written to the disk. The journal is complete")
    tell("the network is stable, so the run is ended" if why == "stable" else "the run is ended")
    return {"journal": FAILED, "full": WARNED}.get(why, WARNED if it.lacks_record() else 0)


def wait_for_server(it: server.Server, run: Running) -> bool:
    """Waits for the end of the server `it`, and prints a line if that takes long. Returns false if the teacher stops
    waiting."""
    if it.has_ended(LATE):
        return True
    while not run.typed.empty():
        run.typed.get()  # Lines that were typed earlier don't answer this question.
    run.tell(f"waiting for the end of the server (process {it.process.number}). Type `end` to stop waiting")
    while not it.has_ended(TICK):
        if not run.typed.empty() and run.typed.get() in (NOW, "end"):
            return False
    return True


def to_the_end(run: Running, start: Callable[[], server.Server]) -> int:
    """Opens the pages of a run, and runs the desk of the server that `start` returns. At the end, writes marks and
    pages into the folder. Returns the exit status. If the run continues without this process, writes no marks and
    pages, and returns FAILED. Raises `Fault` if a page can't be opened, or if `start` raises it."""
    try:
        if run.page is not None:
            kept_layout.load(run.folder)
            run.pages = projector.open_pages(run.page, run.title(), run.names.lab(run.lab), run.typed, run.looks)
            kept_layout.save(run.folder, run.lab)
        if run.play is not None:
            run.hands = by_hand.open_play_page(run.play, run.title(), run.lab)
        queue_signals(run.typed)
        status = hold(run, start())
        if status is None:
            return FAILED
        run.update_record(ended=status != FAILED)
        return finish(run.folder, run.tell, run.is_in_class()) or status
    finally:
        for it in (run.hands, run.pages):
            if it is not None:
                it.stop()
        if run.terminal is not None:
            run.terminal.leave()
