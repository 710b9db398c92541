"""The teacher's desk: its connection to the server, the commands that the teacher types, and the lines and pages that
show how the run goes on.

The *house* plays for absent students. A *privileged* node has an enabled rule, and a granted move is *chosen* until a
*close*, the end of a step, applies it. The class *waits* for a node that is privileged and has no chosen move. The
*daemon* decides when a step is closed and which moves it applies. The *report* is the server's reply about the present
configuration, and the *journal* is the file with the run's events.
"""
from __future__ import annotations

from collections.abc import Callable
from pathlib import Path

from classroom.client import Client, Closed, Denied, Refused
from classroom.core import lab as labs
from classroom.core.bench import network
from classroom.core.counts import plural
from classroom.core.desk_words import WORDS, Action, request
from classroom.core.program import Fault
from classroom.core.shown_names import ShownNames
from classroom.pages.watch import Watch
from classroom.run.announcing import Announcer, report_line
from classroom.run.clock import Clock
from classroom.run.closing import Closing, closing, spelled
from classroom.run.connected import Connected
from classroom.run.following import Follower, raise_unless_memory
from classroom.run.heard import Heard
from classroom.run.house import HOW, House
from classroom.run.typed import EOF, command_help, parse_command
from classroom.setup.shaking import Registers, longest_start, pairs_of, shaken


# For some denials and refusals of a command, what they mean for a teacher.
IN_OTHER_WORDS = {
    "empty": "no granted move waits for the end of the step",
    "not-chosen": "this node has no granted move that waits",
    "memory": "the server is out of memory: type the command again a little later",
}


class Desk:
    """The desk of a run: reads its events, prints them, and runs the teacher's commands."""

    def __init__(self, lab: labs.Lab, journal: Path, client: Client, how: Closing, tell: Callable[[str], None]) -> None:
        """`lab` is the lab of the run, `journal` the journal's file in the run's folder, `client` the desk's
        connection, and `how` the daemon that closes steps. The callback prints a line. Raises `OSError` if the journal
        can't be opened, and `Closed` or `Refused` if the server sends no report."""
        self.lab, self.tell, self.closing = lab, tell, how
        self.known = Follower(lab, journal, client)
        self.announcer = Announcer(lab, journal.parent, self.known, tell)
        self.watch: Watch | None = None
        self.another_page: Callable[[], None] | None = None  # changes the address of the page to act
        self.another_key: Callable[[str], None] | None = None  # changes the key of the student of this name
        self.connected: Connected | None = None
        self.house: House | None = None
        self.heard: Heard | None = None
        self.clock: Clock | None = None
        self.names = ShownNames({})  # the names that the pages show for students
        self.keep_state: Callable[[], None] | None = None  # writes the state that the desk of a class reads
        self.asked_to_end = False
        self.lost = ""  # Why the connection at the desk was lost, or empty while there is one.
        self.actions: dict[Action, Callable[[str, list[str]], None]] = {
            Action.ASK: self.ask,
            Action.REPORT: lambda *_: self.tell_report(),
            Action.WAIT: lambda *_: self.announcer.tell_all_waiting(),
            Action.WHO: lambda *_: self.tell_who(),
            Action.PLAY: lambda _, rest: self.tell(self.house_for(rest[0]).play(rest[0])),
            Action.STOP: lambda _, rest: self.tell(self.house_for(rest[0]).stop(rest[0])),
            Action.CLOSE_BY: lambda word, rest: self.close_by(":".join([word, *rest])),
            Action.DAEMON: lambda _, rest: self.close_by(rest[0]),
            Action.SHAKE: lambda _, rest: self.shake(*rest),
            Action.BREAK: lambda *_: self.set_all(longest_start(self.nodes(), self.announcer.comeback.links)),
            Action.PAGE: lambda *_: self.renew_page(),
            Action.KEY: lambda _, rest: self.renew_key(rest[0]),
            Action.HELP: lambda *_: self.tell(command_help()),
        }

    @property
    def client(self) -> Client:
        """Returns the desk's connection."""
        return self.known.client

    def reconnect(self) -> bool:
        """Connects to the desk again if its connection was lost. Returns whether the desk is connected now. Raises
        `Denied` if the server denies the hello."""
        if not self.lost:
            return True
        try:
            self.use_connection(Client(self.client.port, *self.lab.teacher, limit=self.client.limit))
        except (Closed, Refused) as error:
            self.lost = str(error)
            return False
        self.tell("connected to the server's desk again")
        return True

    def use_connection(self, client: Client) -> None:
        """Makes the desk, its page and its list of connections use `client`, another connection to the desk's port. The
        report counts as old from now on, so that it is asked for again."""
        self.known.client = client
        if self.watch:
            self.watch.client = client
        if self.connected:
            self.connected.but = client.own_port()
        self.lost, self.known.is_old = "", True

    def give_up_connection(self, error: Closed) -> None:
        """Closes the desk's connection, because it has failed by this error or a reply on it is late. Prints that.
        `reconnect` makes another connection."""
        self.lost = str(error)
        self.client.hang_up()
        self.tell(f"the connection to the server's desk is lost; trying to connect again: {error}")

    def catch_up(self) -> None:
        """Counts the events that the journal has already, without a line for each. Prints the configuration from which
        the class continues."""
        self.known.catch_up()
        if self.heard:
            self.heard.catch_up(self.known.last_step)
        self.announcer.announce_resumed()

    def read(self) -> None:
        """Reads the new events of the journal, prints each one except grants, and updates the pages. Ends the run if
        all events of the lab are used, or if no line can be written to the journal."""
        for news in self.known.news():
            self.announcer.announce(news)
            if self.watch:
                self.watch.note_event(self.names.event(news.event))
            if self.house:
                self.house.note(news.event)
            self.announcer.check_limit()
        self.announcer.tell_edits()
        if self.watch:
            try:
                self.watch.publish(self.known.report, self.known.book)
            except Refused as refused:
                raise_unless_memory(refused)
        if self.known.is_halted() or self.announcer.lost_journal():
            self.announcer.end_by("journal")

    def start_watch(self) -> Watch:
        """Starts to keep the data for the pages, beginning with all past events, and returns the object with them. From
        now on `read` updates it."""
        self.watch = Watch(self.lab, self.client, self.known.report, spelled(self.closing))
        for event in self.known.past:
            self.watch.note_event(self.names.event(event))
        return self.watch

    def stand_in(self) -> None:
        """Makes the house ask for moves that the class waits for. Under the central daemon, which applies one move in a
        step, the house asks for one, and only if no move is chosen. Does nothing without a house, while the report is
        old, or once nothing more is granted. Without a record of who connects, assumes that a student has come."""
        if self.house is None or self.known.is_old or self.announcer.over:
            return
        self.house.student_came = self.heard is None or self.heard.came
        waiting = [node for node, _ in self.known.waiting()]
        is_central = self.closing.kind == "central"
        self.house.turn(waiting, len(waiting) if not is_central else 0 if self.known.book.chosen else 1)

    def close(self) -> None:
        """Closes a step. If no move is chosen, prints for whom the class waits. If no more events are granted, ends the
        run. Ignores the refusal `memory`, since the close is asked for again. Raises `Denied` if the close is denied
        for another reason than that no move is chosen."""
        try:
            self.client.close()
        except Denied as denied:
            if denied.name != "empty":
                raise
            self.announcer.tell_waiting()
        except Refused as refused:
            self.note_refusal(refused)

    def note_refusal(self, refused: Refused) -> None:
        """Ends the run if the server has refused a request because nothing more is granted, after printing the last
        events. Ignores the refusal `memory`, since the server is then out of memory for a moment only."""
        if refused.word in ("full", "journal"):
            self.read()
            self.announcer.end_by(refused.word)

    def command(self, line: str) -> bool:
        """Runs a line that the teacher has typed. Returns false if it ends the run. Prints what is wrong if the line
        can't be run. Raises `Closed` if the desk's connection has ended. Raises `Left` if another process wants the
        desk while the command `key` connects to it again."""
        if line == EOF:
            self.tell("to end the run, type `end`")
            return True
        asked, self.asked_to_end = self.asked_to_end, False
        try:
            word, *rest = parse_command(line)
            if WORDS[word].action is Action.END:
                return not self.confirm_end(asked)
            self.read()
            self.actions[WORDS[word].action](word, rest)
        except (Denied, Refused) as no:
            more = f" ({IN_OTHER_WORDS[no.word]})" if no.word in IN_OTHER_WORDS else ""
            self.tell(f"the server {'denied' if isinstance(no, Denied) else 'refused'} this command: {no}{more}")
            if isinstance(no, Refused):
                self.note_refusal(no)
        except (ValueError, Fault) as error:
            self.tell(str(error))
        return True

    def confirm_end(self, asked: bool) -> bool:
        """Returns whether a typed `end` ends the run. If the run isn't stable, `end` has to be typed twice, and the
        first time a line says so. `asked` is set if the line before was `end` too."""
        self.known.ask_report()
        if asked or self.known.report.stable:
            return True
        self.asked_to_end = True
        self.tell(f"the network isn't stable yet (privileged nodes: {len(self.known.report.privileged)}). Type `end` once more to end the run anyway")
        return False

    def ask(self, word: str, rest: list[str]) -> None:
        """Sends the request of the command `word` to the server, with the values `rest` that were typed after this
        word. Raises `Denied` or `Refused` if the server doesn't grant it."""
        self.client.ask(**request(word, rest))

    def tell_report(self) -> None:
        """Asks for the report of the present configuration, and prints it with the number of events."""
        self.known.ask_report()
        self.tell(f"{report_line(self.known.report)}; {self.announcer.events_used()}")

    def tell_who(self) -> None:
        """Prints who is connected, who asks without success, and who hasn't moved. If there is no record, prints only
        the processes that are connected."""
        if self.connected and self.heard:
            self.heard.read()
            self.heard.forget_before(self.known.last_step)
            who = self.heard.who(self.connected.count(), self.connected.seats, self.connected.names.values())
            self.tell(f"connected: {who}")
            for line in self.heard.amiss():
                self.tell(line)
        elif self.connected:
            self.tell(f"connected: {self.connected.who()}")
        idle = ", ".join(self.known.book.idle)
        self.tell(f"students without a granted move so far: {idle}" if idle else "each student has had a granted move")
        if self.house:
            self.tell(self.house.played_line())

    def house_for(self, name: str) -> House:
        """Returns the house, for a command about its playing the nodes of the student `name`. Raises `ValueError` with
        the reason if there is no house or it can't play."""
        if self.house is None and self.lab.house_nodes():
            raise ValueError("the house can't play, because this run was started with --serve. Start the next run without it")
        if self.house is None:
            raise ValueError(f"the house can't play for {name}, because it owns no node in this lab. {HOW}")
        return self.house

    def nodes(self) -> list[int]:
        """Returns the identifiers of all nodes."""
        return [node.id for node in self.lab.nodes]

    def present_lab(self) -> labs.Lab:
        """Returns the network with its present registers and links, as a lab. Asks the server for the registers of each
        node. Raises `Closed` or `Refused` if the server doesn't show them, and `Fault` if the program isn't built."""
        seen = [self.client.see(node) for node in self.nodes()]
        return network([labs.Node(it.node, [], it.p, it.m) for it in seen], pairs_of(self.announcer.comeback.links))

    def renew_page(self) -> None:
        """Changes the address of the page on which the teacher acts. Requests at the old one are refused from then on.
        Raises `ValueError` if the run has no page."""
        if self.another_page is None:
            raise ValueError("this run has no page. Start a run with --page if you want one")
        self.another_page()

    def renew_key(self, name: str) -> None:
        """Gives the student `name` another key. For that the server is restarted, so all programs have to connect
        again. Raises `ValueError` if the run was started with --serve or there is no such student, and `Fault` if the
        server can't be restarted. Raises `Closed`, `Denied` or `Left` if the desk can't be connected to the new
        server."""
        if self.another_key is None:
            raise ValueError("the key can't be changed, because this run was started with --serve. End the run, and change the key by `class key`")
        self.another_key(name)

    def close_by(self, word: str) -> None:
        """Changes the daemon that closes steps to the one that `word` names, and prints that. Raises `ValueError` if it
        names none."""
        self.closing = closing(word)
        self.tell(f"from now on steps are closed by the daemon {spelled(self.closing)}")
        if self.watch:
            self.watch.present.put(closing=spelled(self.closing))

    def shake(self, count: str, seed: str | None = None) -> None:
        """Sets the registers of `count` random nodes to random values, or those of all nodes if `count` is `all`. The
        nodes and values are drawn with the seed, or with a random one if it is None. Prints how many nodes were set.
        Raises `Fault` if there aren't so many nodes, and `Denied` or `Refused` if the server doesn't grant a fault."""
        self.set_all(shaken(self.nodes(), self.announcer.comeback.links, count, int(seed) if seed is not None else None))

    def set_all(self, registers: list[Registers]) -> None:
        """Sets the registers of several nodes, by one fault after another, and prints how many they are. Raises
        `Denied` or `Refused` if the server doesn't grant a fault. The faults before that one stay."""
        for node, p, m in registers:
            self.client.fault(node, p, m)
        self.tell(f"the registers of {plural(len(registers), 'node')} were set")
