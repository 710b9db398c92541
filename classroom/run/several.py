"""A class of several networks: one process for each network, and one desk for all of them.

The *desk* is the terminal or program at which the teacher types commands. A *member* is a network with its process. A
network is *down* if its server or its desk is gone, which is printed as an alarm. *News* are functions in a queue,
which one thread calls one after another. The *hall* is the page for all networks, whose address has a random *token*. A
*door* is a TLS port at which students on other machines connect. In the functions, `words` are the arguments of the
command line.
"""
from __future__ import annotations

import argparse
import os
import queue
import signal
import sys
import threading
import time
from collections.abc import Callable, Sequence
from dataclasses import replace
from datetime import datetime
from pathlib import Path

from classroom.core import lab as labs
from classroom.core.class_state import DOWN, ENDED, RUNS, STARTS, ClassState
from classroom.core.classes import Class, Network, make_folder, title
from classroom.core.counts import plural
from classroom.core.folders import Process
from classroom.core.printable import printable
from classroom.core.program import CLASS, LAST_PORT, Fault
from classroom.core.statuses import FAILED, WARNED
from classroom.pages import hall
from classroom.run import addressed, letting, server
from classroom.run.clock import Clock, end_of
from classroom.run.closing import spelled
from classroom.run.member import Member, News
from classroom.run.network_table import now_table, start_table
from classroom.run.teller import FOR_ALL, FROM_ELSEWHERE, READY, TO_ACT, is_private
from classroom.run.typed import EOF, Terminal, command_help, read_lines
from classroom.setup.slips import Way

SIGNALS = (signal.SIGINT, signal.SIGTERM)
TICK = 0.2  # seconds between two looks at the clock and at the states of the networks
REMIND = 60.0  # seconds after which an alarm that stays is printed again
SHOWN = 0.5  # seconds between two looks at the states for the page


class Several:
    """The desk of a class, at which lines are typed for one network or several."""

    def __init__(self, folder: Path, members: list[Member], news: News, is_typed: bool, clock: Clock | None = None) -> None:
        """`folder` is that of the class, `members` are its networks, and `news` is the queue of functions for the desk
        to call. `is_typed` says whether lines are typed, on a terminal or by a program. `clock` has the end of the
        lesson, if there is one."""
        self.folder, self.members, self.news, self.is_typed, self.clock = folder, members, news, is_typed, clock
        self.names = [member.name for member in members]
        self.terminal: Terminal | None = None
        self.hall: hall.Hall | None = None
        self.written: Class | None = None  # the contents of `class.json`, once this process has written the file
        self.from_elsewhere = ""  # the address of the page for all networks through the door
        self.lines: list[str] = []  # the last lines, which the page shows
        self.is_told = False  # Whether the table was printed.
        self.is_left = False  # Whether another process takes the desks.
        self.is_ended = False  # Whether a signal has ended the class.
        # When alarms were last printed again, and when the page was last updated.
        self.reminded = self.looked = time.monotonic()

    def say(self, line: str, private: bool = False) -> None:
        """Prints a line, and keeps it for the page unless it is private. If the terminal is closed, prints nothing and
        raises no error."""
        line = printable(line)
        if not private:
            self.lines = [*self.lines, line][-hall.LISTED:]
        try:
            print(self.terminal.around(line + "\n") if self.terminal else line + "\n", end="", flush=True)
        except OSError:
            pass  # The terminal went away; each run keeps its lines.

    def hear(self, member: Member, line: str) -> None:
        """Notes the facts in a line that the process of the network `member` has printed. Prints the line after the
        network's name, unless the table of networks has its content. The address to act at is printed only if nobody
        but the teacher reads it."""
        is_private_line = line.startswith(f"{TO_ACT} http")
        if member.note_line(line) and (not is_private_line or is_private(self.is_typed)):
            self.say(f"{member.name}: {line}", is_private_line)

    def note_end(self, member: Member) -> None:
        """Handles the end of the process of the network `member`. Prints the alarm if the network is down now, unless
        another process takes over the desks."""
        member.note_end()
        if member.status == DOWN and not self.is_left:
            self.say(self.alarm(member))
        self.update_prompt()

    def alarm(self, member: Member) -> str:
        """Returns the line of the alarm for `member`, a network that is down."""
        return f"ALARM {member.name} is down: {member.alarm}"

    def down(self) -> list[Member]:
        """Returns the networks that are down."""
        return [member for member in self.members if member.status == DOWN]

    def update_prompt(self) -> None:
        """Shows in the terminal's prompt which networks are down."""
        if self.terminal is not None:
            names = ", ".join(member.name for member in self.down())
            self.terminal.prompt = f"down: {names}> " if names else Terminal.PROMPT

    def run_line(self, line: str) -> None:
        """Runs a typed line, or prints what is wrong with it."""
        if line == EOF:
            return self.say("to end the class, type `end`; to end only network 2, type `end 2`")
        try:
            indices, rest = addressed.addressed(line, self.names)
        except ValueError as error:
            return self.say(f"not done: {error}")
        word, *values = rest.split() or [""]
        if word == addressed.HELP:
            return self.say(help_text())
        if word == addressed.NETWORKS:
            return self.say(now_table([member.shown() for member in self.members]))
        if word in addressed.NAMING and len(values) == 1 and len(indices) > 1:
            indices = self.with_student(values[0], indices)
        for index in indices:
            self.ask(self.members[index], word, rest, len(indices) == 1)

    def with_student(self, name: str, indices: list[int]) -> list[int]:
        """Returns the index of the network that has a student of this name, as a list. Only looks at the networks with
        the indices in `indices`. If none or several have such a student, prints that and returns an empty list."""
        found = [index for index in indices if name in self.members[index].lab.students]
        if len(found) != 1:
            there = ", ".join(self.names[index] for index in found)
            self.say(f"{name} is in several networks. Write the name of one of them before the command: {there}" if found else
                     f"there is no student {name} in this class")
        return found if len(found) == 1 else []

    def ask(self, member: Member, word: str, line: str, is_alone: bool) -> None:
        """Runs the command `line`, which begins with `word`, for the network `member`. If `is_alone` is set, the line
        is for no other network, and a failure is printed."""
        if word == addressed.RESUME:
            if member.status == DOWN:
                member.start(self.hear, self.note_end)
                self.update_prompt()
            elif is_alone:
                self.say(f"{member.name} isn't down, so there is nothing to resume")
        elif word == addressed.END and member.status == DOWN:
            try:
                self.say(f"{member.name}: {member.give_up()}")
            except ValueError as error:
                self.say(f"{member.name}: not done: {error}")
            self.update_prompt()
        elif not member.send(line) and is_alone:
            self.say(f"{member.name}: not done: {'this network has ended' if member.status == ENDED else member.alarm or 'this network is still starting'}")

    def act(self, line: str) -> None:
        """Runs a line that was sent by the page on which the teacher acts. The page has already asked the teacher
        whether to end a network, so the first `end` ends it."""
        try:
            indices, rest = addressed.addressed(line, self.names)
        except ValueError:
            return  # The page sends only names of networks that exist, but another program may send any.
        for index in indices:
            if rest == addressed.END and self.members[index].status in (STARTS, RUNS):
                self.members[index].terminate()
            else:
                self.ask(self.members[index], rest.split()[0], rest, len(indices) == 1)

    def listen(self) -> None:
        """Starts a thread that reads typed lines."""
        if sys.stdin.isatty():
            self.terminal = Terminal([*self.names, *self.nodes()])
        read = self.terminal.read if self.terminal else read_lines
        put: Callable[[str], None] = lambda line: self.news.put(lambda: self.run_line(line))
        threading.Thread(target=read, args=[put], daemon=True).start()

    def nodes(self) -> list[str]:
        """Returns the identifiers of the nodes in all networks, as texts."""
        return [str(node) for node in sorted({node.id for member in self.members for node in member.lab.nodes})]

    def tell_table(self) -> None:
        """Prints the table of networks with the addresses of the page for all networks, once all networks have started
        or are down. Does nothing if the table was printed already."""
        if self.is_told or any(member.status == STARTS for member in self.members):
            return
        self.is_told = True
        self.say(f"class of {plural(len(self.members), 'network')}; folder {self.folder}")
        play = [member.facts.get("play_from", member.facts.get("play", "")) for member in self.members]
        for line in start_table([member.shown() for member in self.members], play):
            self.say(line)
        if self.hall is not None:
            self.hall.show(self.state(False), self.state(True))  # Whoever opens the page sees all networks at once.
            self.say(f"{FOR_ALL} {self.hall.address}")
            if self.from_elsewhere:
                self.say(f"{FOR_ALL}{FROM_ELSEWHERE} {self.from_elsewhere}")
            if is_private(self.is_typed):
                self.say(f"{FOR_ALL}, on which you can act {self.hall.address_to_act}", private=True)
        if self.clock is not None:
            self.say(self.clock.first_line())
        if self.is_typed:
            self.say(f"{READY}help lists them; {addressed.HOW}")

    def tick(self) -> None:
        """Does what is due at this time: prints warnings before the end of the lesson, ends the class then, repeats
        alarms, and updates the page."""
        self.tell_table()
        now = time.monotonic()
        self.check_clock()
        if now - self.reminded >= REMIND:
            self.reminded = now
            for member in self.down():
                self.say(self.alarm(member))
        if self.hall is not None and now - self.looked >= SHOWN:
            self.looked = now
            self.hall.show(self.state(False), self.state(True))

    def check_clock(self) -> None:
        """Prints the warnings before the end of the lesson, and ends all networks when the end has come. Networks that
        are down are given up then."""
        if self.clock is None:
            return
        if warning := self.clock.warning(datetime.now()):
            self.say(warning)
        if not self.clock.is_over(datetime.now()):
            return
        self.say(self.clock.last_line())
        self.clock = None
        for member in self.members:
            member.terminate()
        for member in self.down():
            self.ask(member, addressed.END, addressed.END, False)

    def state(self, acts: bool, ended: bool = False) -> ClassState:
        """Returns the state of the class, as the page for all networks shows it. The state has the addresses of the
        networks' pages: those to act at if `acts` is set, and otherwise those to look at. `ended` says whether the
        class has ended."""
        return ClassState(title(self.folder), [member.shown(acts) for member in self.members], self.lines, ended)

    def has_open_network(self) -> bool:
        """Returns whether any network is running, or is down and can still be resumed by a line or by the page. After a
        signal, neither can resume a network."""
        can_be_told = not self.is_ended and (self.is_typed or self.hall is not None)
        return any(member.status in (STARTS, RUNS) or member.status == DOWN and can_be_told for member in self.members)

    def attend(self) -> int:
        """Runs the desk until each network has ended, or is down and can't be resumed from the desk or its page. Ends
        earlier if another process takes the desks. Returns the exit status: the highest of the networks' processes, or
        FAILED if another process takes the desks."""
        while self.has_open_network() and not self.is_left:
            try:
                self.news.get(timeout=TICK)()
            except queue.Empty:
                pass
            self.tick()
        if self.terminal is not None:
            self.terminal.leave()
        if self.hall is not None:
            self.hall.stop(self.state(False, True), self.state(True, True))
        if self.is_left:
            self.say("another process now controls this class, so this one ends")
            return FAILED
        self.say(f"the class is ended, and all its files are in {self.folder} . To print the marks, type: {CLASS} mark {self.folder}")
        return max(member.code for member in self.members)

    def end(self) -> None:
        """Ends the run of each network that is running, because of a signal. Also stops waiting for those that are
        down. The exit status of those isn't 0."""
        self.is_ended = True
        for member in self.members:
            member.terminate()
        self.is_typed = False
        for member in self.down():
            member.code = member.code or WARNED

    def leave(self) -> None:
        """Makes all networks' processes leave their desks, waits for that, and ends this desk for another process."""
        self.is_left = True
        for member in self.members:
            member.leave()
        for member in self.members:
            if member.child is not None:
                member.child.wait()

    def note_hung(self) -> None:
        """Notes in the file `class.json` that the terminal is closed. The class continues without one. Writes the whole
        file again, so that `attach` can take over the class even if the file was damaged meanwhile."""
        if self.written is not None:
            self.written = replace(self.written, left=True)
            self.written.write(self.folder)

    def queue_signals(self) -> None:
        """Makes each signal that comes from now on put the function that handles it into the queue of news."""
        for number in SIGNALS:
            signal.signal(number, lambda *_: self.news.put(self.end))
        signal.signal(signal.SIGUSR1, lambda *_: self.news.put(self.leave))
        signal.signal(signal.SIGHUP, lambda *_: self.news.put(self.note_hung))


def help_text() -> str:
    """Returns all words that can be typed with what they do, those of the class's desk first."""
    wide = max(map(len, addressed.OWN))
    own = "\n".join(f"  {form:{wide}}  {what}" for form, what in addressed.OWN.items())
    return f"{addressed.HOW}\n{own}\n{command_help()}"


def passed_on_words(words: argparse.Namespace) -> list[str]:
    """Returns those options of a desk in the arguments that are passed on to the run of each network."""
    more = ["--until", words.until] if words.until else []
    more += ["--close", spelled(words.close)] if words.close else []
    more += ["--stand-in", f"{words.stand_in:g}"] if words.stand_in is not None else []
    more += ["--ends", words.ends] if words.ends else []
    more += ["--anonymous"] if words.anonymous else []
    return more


def words_of(words: argparse.Namespace, index: int) -> list[str]:
    """Returns the arguments for the process that runs the network with this index. `words` are the arguments of a new
    class, or those of `attach` or `run --resume`. They have `ports`, the networks' ports, only for a new class. They
    have `plays`, the ports of the pages on which students play, for a new class and for one that continues with a new
    door. A network that continues keeps its port and, if `play` is None, the port of that page. If `play` is set, but
    `plays` is missing, the first network's page gets the port `play`, and the others the next ones. The class's own
    page has the port `page`, and the pages of the networks have the next ones. `attach` has no option `--serve`."""
    more, plays = passed_on_words(words), getattr(words, "plays", None)
    more += ["--port", str(words.ports[index])] if hasattr(words, "ports") else []
    more += ["--serve"] if getattr(words, "serve", False) else []
    more += ["--page", str(words.page + 1 + index)] if words.page is not None else []
    more += ["--play", str(plays[index] if plays else words.play + index)] if words.play is not None else []
    return more


def members_of(folder: Path, networks: Sequence[Network], words: argparse.Namespace, news: News) -> list[Member]:
    """Returns the members of the class in a folder, one for each of these networks, for which no process is started
    yet. `words` are the arguments of the class, from which those of each network's run are made. `news` is the queue of
    the class's desk. Raises `Fault` if a lab can't be read."""
    found = []
    for index, network in enumerate(networks):
        own = folder / network.name
        lab = labs.read(own / "lab.toml" if (own / "lab.toml").is_file() else Path(network.lab))
        found.append(Member(index + 1, network, own, lab.without_house(), words_of(words, index), news))
    return found


def networks_of(words: argparse.Namespace) -> list[Network]:
    """Returns the networks of the labs that the arguments name. Raises `Fault` if two labs have the same name, if a
    lab's name has another meaning in commands, or if there aren't as many rooms as labs."""
    rooms = [room.strip() for room in words.rooms.split(",")] if words.rooms else [*map(room_of, words.labs)]
    if words.rooms and len(rooms) != len(words.labs):
        raise Fault(f"--rooms names {plural(len(rooms), 'room')}, but there are {len(words.labs)} networks. Name one room for each network")
    found = [Network(Path(lab).stem, rooms[index], str(Path(lab).resolve())) for index, lab in enumerate(words.labs)]
    names = [network.name for network in found]
    for name in names:
        if names.count(name) > 1:
            raise Fault(f"several of these labs are called {name}. Rename their files, so that the names differ")
        if name.isdecimal() or name == addressed.EVERY:
            raise Fault(f"a lab of a class can't be called {name}, because this word has another meaning in commands. Rename the file of the lab")
    return found


def room_of(lab: str) -> str:
    """Returns the room in the slips of a lab's students, or an empty text if they name none."""
    way = Way.read(Path(lab))
    return way.room if way is not None else ""


def require_ports(words: argparse.Namespace, count: int) -> None:
    """Raises `Fault` if the ports of `count` networks and their pages would exceed the last one."""
    if max(*words.ports, *words.plays, (words.page or 0) + count) > LAST_PORT:
        raise Fault(f"{count} labs need as many ports, and some would be above {LAST_PORT}, the highest port. Name a lower --port, --page or --play")


def run_desk(folder: Path, members: list[Member], news: News, words: argparse.Namespace, start_networks: Callable[[Several], None]) -> int:
    """Opens the page and the door of the class in a folder if the arguments `words` ask for them, writes the class's
    file, and calls `start_networks`. Then runs the desk of the class to its end, for the networks `members`. `news` is
    the queue of functions that the desk calls. If the class continues, the file has the earlier end of the lesson,
    address of the page and door, and they are used again. Returns the exit status. Raises `Fault` if the page or the
    door can't be opened, or if the end of the lesson has passed."""
    typed = words.typed or sys.stdin is not None and sys.stdin.isatty()
    kept = Class.read(folder)
    end = end_of(words.ends, kept.ends if kept else None)
    several = Several(folder, members, news, typed, Clock(end, datetime.now()) if end else None)
    if words.page is not None:
        several.hall = open_page(several, words.page, kept.looks if kept else None)
    files = [Path(member.network.lab) for member in members]
    with letting.door(with_door(words), files, several.say, kept.door if kept else None) as door:
        for member in members:
            member.more += ["--door-at", door] if door is not None else []
        if several.hall is not None:
            several.from_elsewhere = letting.route_to_page_for_all(door, files[0], several.hall.server_port, several.hall.looks)
        write_class(several, end, door)
        several.queue_signals()
        start_networks(several)
        if typed:
            several.listen()
        return several.attend()


def open_page(several: Several, port: int, token: str | None) -> hall.Hall:
    """Opens the page of all networks of a class, at a port or the next free one. `token` is the token of the page's
    earlier address, or None for a new address. Raises `Fault` if no port is free."""
    members = several.members
    return hall.open_hall(port, title(several.folder), lambda line: several.news.put(lambda: several.act(line)), several.state(False), token,
                          lambda: [hall.view(member.folder, member.lab) for member in members])


def write_class(several: Several, end: datetime | None, door: str | None) -> None:
    """Writes the file of a class, with this process as the one that holds its desks, and keeps the contents in
    `several`. `end` is the end of the lesson, and `door` the folder of the door, if there are any."""
    page = several.hall
    several.written = Class([member.network for member in several.members], Process.of(os.getpid()), page=page.server_port if page else None,
                            looks=page.looks if page else None, ends=end.isoformat() if end else None, door=door)
    several.written.write(several.folder)


def with_door(words: argparse.Namespace) -> argparse.Namespace:
    """Returns the arguments, with None for each option of a door that they lack. (Those of `attach` lack all of these
    options.) If no option names a door, an earlier door of the class is opened again."""
    return argparse.Namespace(**{"door": None, "door_at": None, "certificate": None, **vars(words)})


def side_by_side(words: argparse.Namespace) -> int:
    """Runs the labs that the arguments name, as the networks of one class. A signal to this process ends all of them.
    Returns the exit status. Raises `Fault` if the class can't be started, or if nobody could close its steps."""
    typed = words.typed or sys.stdin is not None and sys.stdin.isatty()
    if words.close is not None and words.close.kind == "by-hand" and not typed:
        raise Fault("with --daemon by-hand you close the steps, but the input isn't a terminal in which you can type. Add --typed, or choose another daemon")
    require_ports(words, len(words.labs))
    server.require_built(words.serve)
    end_of(words.ends)  # A time that has passed raises an error before anything is made, as does a lab that is refused.
    networks, news = networks_of(words), News()
    members = members_of(Path(), networks, words, news)  # The folder is made only after all labs are read.
    folder = make_folder(Path(words.into), networks)
    for member in members:
        member.folder = folder / member.name

    def start(several: Several) -> None:
        """Starts the process of each network."""
        for member in members:
            member.start(several.hear, several.note_end)

    return run_desk(folder, members, news, words, start)
