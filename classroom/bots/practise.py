"""`./class practise`: a student practises alone, with the house at the other nodes.

The class runs in this process (`classroom.bots.playing`). The *house* plays all nodes but the student's. The student's
program is a *bot* if the command starts it.
"""
from __future__ import annotations

import argparse
import contextlib
import os
import random
import signal
import time
from collections import Counter
from collections.abc import Callable, Iterator
from dataclasses import dataclass, field
from pathlib import Path

from classroom.bots import explaining
from classroom.bots.bots import Bot, RunningBot, end_in_words
from classroom.bots.conduct import FLOODS
from classroom.bots.playing import OWN_RULE, NotGranted, Playing, Step
from classroom.bots.suites import HOUSE, TEACHER, new_key
from classroom.client import RULES
from classroom.core import lab as labs
from classroom.core import bounds, limits, networks
from classroom.core.counts import plural, positive, seconds
from classroom.core.folders import new_folder
from classroom.core.processes import reap_orphans
from classroom.core.program import TOP, Fault, call, first_free, require_built
from classroom.core.rounds import Recovery
from classroom.core.statuses import WARNED
from classroom.pages import by_hand
from classroom.run.daemons import FORMS, Daemon, daemon
from classroom.run.heard import MALFORMED
from classroom.run.teller import Teller
from classroom.setup import slips
from classroom.setup.new import set_registers

QUIET = 10.0  # seconds without news after which it prints for whom the class waits
MEGABYTES = 4096  # the memory limit of a program at home
PAGE_PORT = 4790  # the port of the page to play by, or the first one from which a free one is searched
REST = 0.3  # seconds for which a stable class still answers late lines
SEED = 5503  # With this seed and the default network and start, both of the student's nodes need all four rules.


def add_words(words: argparse.ArgumentParser) -> None:
    """Adds the arguments of `practise` to its parser."""
    words.add_argument("bots", nargs="*", metavar="BOT",
                       help="a command, such as 'python3 bot.py'; the path of a slip is added to it. Without a BOT, it waits for your program at a port")
    words.add_argument("--family", default="cycle", help=f"the network: {networks.NAMED} (cycle)")
    words.add_argument("--nodes", type=positive, help="the number of nodes (7)")
    words.add_argument("--node", metavar="I,..", help="your nodes; the BOTs get them in turn (two random nodes for each BOT)")
    words.add_argument("--start", choices=networks.STARTS, default="hurt", help=f"{networks.STARTED} (hurt)")
    words.add_argument("--daemon", type=daemon, default=Daemon("when-idle", 0.5), metavar="D",
                       help=f"how steps are closed: {FORMS} (when-idle:0.5)")
    words.add_argument("--seed", type=int, default=SEED, help=f"the seed of network, start and daemon ({SEED})")
    words.add_argument("--timeout", type=seconds, default=60.0, metavar="SECONDS",
                       help="if you name a BOT, end after this time without an event (60)")
    words.add_argument("--own-rule", action="store_true", help="hide the rule in the replies to looks, so that your program has to find it by itself")
    words.add_argument("--port", type=positive, help="use this port or the next free one (4711; with a BOT any free port)")
    words.add_argument("--page", action="store_true", help="play by hand on a page in your browser, without a BOT")
    words.add_argument("--into", default="runs", help="the folder in which the run's folder is made (runs)")
    words.set_defaults(work=practise)


def own_nodes(word: str | None, identifiers: list[int], bots: int, chance: random.Random) -> list[int]:
    """Returns the student's nodes: those that the argument `word` names, or if it is None, two for each of `bots` bots,
    which `chance` chooses. Raises `Fault` if the argument names no node or a node that isn't in `identifiers`."""
    if word is None:
        return sorted(chance.sample(identifiers, min(2 * bots, len(identifiers))))
    try:
        nodes = [int(each) for each in word.replace(",", " ").split()]
    except ValueError:
        raise Fault(f"--node {word}: write the numbers of your nodes with commas between them, such as 5,6") from None
    wrong = [node for node in nodes if node not in identifiers]
    if wrong or not nodes:
        raise Fault(f"--node {word}: this network has only the nodes {identifiers[0]} to {identifiers[-1]}, so name some of these")
    return list(dict.fromkeys(nodes))


def practice_lab(words: argparse.Namespace, names: list[str]) -> labs.Lab:
    """Returns the lab that the arguments describe. The students with these names get their nodes in turn, and the house
    gets the others. Raises `Fault` if a student would get no node, or if there is no such network or node."""
    chance = random.Random(f"practise {words.seed}")
    sized = words.family.startswith(("grid:", "random:"))
    nodes, links = networks.family(words.family, words.nodes or (None if sized else 7), students=0, chance=chance)
    identifiers = list(range(1, nodes + 1))
    own = own_nodes(words.node, identifiers, len(names), chance)
    if len(own) < len(names):
        raise Fault(f"{len(names)} BOTs need at least {len(names)} nodes: name more nodes by --node, or make the network larger by --nodes")
    owner = {node: names[index % len(names)] for index, node in enumerate(own)}
    keys = {name: new_key() for name in [*names, HOUSE]}
    dealt = [labs.Node(node, [owner.get(node, HOUSE)]) for node in identifiers]
    most = limits.allowed()
    it = labs.Lab(most.events, most.sessions, (TEACHER, new_key()), keys, dealt, links)
    set_registers(it, words.start, chance)
    return it


def open_class(lab: labs.Lab, names: list[str], words: argparse.Namespace) -> Playing:
    """Opens the class of a lab at its port, and returns the class, in which programs play the students in `names`. The
    port is that of the arguments, or 4711 if they have none, or the next free one after it. If the arguments have a bot
    but no port, it is any free one. Raises `Fault` if no port is free."""
    def at(port: int) -> Playing | None:
        """Returns the class at that port, or None if the port is taken."""
        try:
            return Playing(lab, names, words.daemon, f"practise {words.seed}", port, words.own_rule)
        except OSError:
            return None

    if words.bots and not words.port:
        return Playing(lab, names, words.daemon, f"practise {words.seed}", own_rule=words.own_rule)
    return first_free(words.port or 4711, at)


@dataclass
class Practice:
    """A class with the student's programs, and the lines that are printed about them."""

    playing: Playing
    tell: Callable[[str], None]
    timeout: float | None  # seconds without an event after which the class is given up; None is no limit
    kept: list[tuple[str, RunningBot]] = field(default_factory=list)  # the running bots, each after its student's name
    told: str = ""  # the last line about whom the class waits for
    told_at: float = float("-inf")  # when it was printed
    stop: bool = False  # whether an interrupt came
    times: Counter[tuple[str, str]] = field(default_factory=Counter)  # how many lines of a student and a kind weren't granted
    floods: set[str] = field(default_factory=set)  # the students whose programs sent lines without a pause

    def __post_init__(self) -> None:
        """Begins to count the moves and rounds, and to listen to the events of the class."""
        self.recovery = Recovery(node for node, _ in self.playing.report["privileged"])
        self.most = bounds.of_lab(self.playing.lab).moves  # computed at the beginning, so that no step has to wait for it
        self.playing.on_no, self.playing.on_step = self.explain, self.print_step

    def explain(self, no: NotGranted) -> None:
        """Prints why a line wasn't granted. Does so only for the first line of its kind, and prints the count at the
        tenth, the hundredth and so on."""
        self.times[no.who, no.kind] += 1
        times = self.times[no.who, no.kind]
        if times == 1:
            self.tell(f"{no.who}: {no.text}{explaining.of_denial(self.playing, no.line) if no.word == 'guard' else ''}")
        elif str(times).strip("0") == "1":
            self.tell(f"{no.who}: this has happened {times} times so far: {no.kind}")

    def print_step(self, step: Step) -> None:
        """Counts the moves and rounds of a closed step, and prints the step as a line."""
        privileged = [node for node, _ in step.report["privileged"]]
        self.recovery.step([node for node, _, _ in step.moved], privileged)
        moved = ", ".join(f"{rule} at node {node} ({who})" for node, who, rule in step.moved)
        left = f"{plural(len(privileged), 'privileged node')}" if privileged else "the network is stable"
        self.tell(f"configuration {step.at}: {moved}; {left}; {self.recovery.moves} of at most {self.most} moves so far")
        self.told = ""

    def turn(self) -> None:
        """Runs the class for a few milliseconds, and notes which programs send lines without a pause."""
        self.playing.turn()
        self.floods |= {name for name in self.playing.programs if self.playing.heard[name].conduct.is_flooding(len(self.playing.lab.nodes_of(name)))}

    def summary(self, name: str) -> str:
        """Returns the line about all that the program of the student `name` did: its moves, its denials, and its
        mistakes."""
        heard = self.playing.heard[name]
        moves = ", ".join(rule for rule in RULES if heard.rules[rule])
        denied = {word: times for word, times in sorted(heard.denied.items()) if word != MALFORMED}
        text = f"{name}: {plural(heard.granted, 'granted move')}" + f" ({moves})" * bool(moves)
        text += f", {plural(sum(denied.values()), 'denial')}"
        text += f" ({', '.join(f'{times} {word}' for word, times in denied.items())})" * bool(denied)
        if heard.denied[MALFORMED]:
            text += f", {plural(heard.denied[MALFORMED], 'malformed line')}"
        never = ", ".join(rule for rule in RULES if rule not in heard.wanted)
        text += f"; rules that were never asked for: {never}" * bool(never) + f"; {FLOODS}" * (name in self.floods)
        return text + f"; {heard.conduct.wrong}" * bool(heard.conduct.wrong)

    def explain_silence(self) -> str:
        """Returns for each program a semicolon, its student's name and why no lines come from it, as far as that is
        known."""
        hints = {name: self.playing.explain_silence(name).removeprefix("; ") for name in self.playing.programs}
        return "".join(f"; {name}: {hint}" for name, hint in hints.items() if hint)

    def run(self) -> bool:
        """Runs the class until it is stable, and a little longer to answer late lines. Ends earlier if nothing has
        happened for the time limit, if no bot is left that could move, or if it is interrupted. Prints how bots have
        ended, and after QUIET seconds without news, for whom the class waits. Returns whether the class is stable."""
        playing = self.playing
        while not playing.is_stable() and not self.stop:
            self.turn()
            idle = time.monotonic() - playing.news
            for name, kept in list(self.kept):
                how = kept.ended()
                if how:
                    self.tell(f"{name}: the bot {end_in_words(how, None)}")
                    self.kept.remove((name, kept))
            waiting = playing.waiting() + self.explain_silence()
            gone = not self.kept and self.timeout is not None  # Without a time limit, the student starts the program.
            if self.timeout is not None and (idle > self.timeout or gone and idle > REST):
                adds = "".join(explaining.of_waiting(playing, name) for name in playing.programs)
                why = "no bot is running any longer" if gone else f"nothing has happened for {self.timeout:g} seconds"
                self.tell(f"the run is given up, since {why}; it waits for {waiting}{adds}")
                return False
            if idle > QUIET and self.told != waiting and time.monotonic() - self.told_at > QUIET:
                self.tell(f"waiting for {waiting}")
                self.told, self.told_at = waiting, time.monotonic()
        end = time.monotonic() + REST
        while time.monotonic() < end:
            self.turn()
        return playing.is_stable()


def write_run(playing: Playing, folder: Path, tell: Callable[[str], None]) -> None:
    """Writes the files of the run of the class `playing`, and a page for each program, into the folder. Calls the
    callback with a line that names the first page and the conversation. Raises `Fault` if a page can't be made, and
    `OSError` if a file can't be written."""
    playing.write(folder)
    answer = call("script", folder / "lab.toml", folder / "script", folder / "journal")
    if answer.status != 0:
        raise Fault(f"{folder}: the page of this run can't be made, since the program answers its script with an error: {answer.error}; report this to "
                    "the developers", 4)
    names = playing.programs
    for name, file in zip(names, [folder / "run.html", *(folder / f"{name}.html" for name in names[1:])]):
        file.write_text(playing.own_page(folder, name), encoding="utf-8")
    tell(f"page: {folder / 'run.html'}; all lines and replies: {folder / 'conversation.txt'}")


def practise(words: argparse.Namespace) -> int:
    """Runs a class in which the student's bots, or the student's own program or page, play some nodes. Returns the exit
    status. Raises `Fault` if the proved program isn't built, the arguments can't be used, or a file can't be
    written."""
    require_built()
    if words.page and words.bots:
        raise Fault("--page is for playing by hand: leave the BOT out")
    reap_orphans()
    bots = [Bot.of(word) for word in words.bots]
    for bot in bots:
        if bot.fault:
            raise Fault(bot.fault)
    names = ["you"] if len(bots) < 2 else [f"you-{number}" for number in range(1, len(bots) + 1)]
    lab = practice_lab(words, names)
    folder = new_folder(Path(words.into), Path("practise"))
    with contextlib.closing(ClassWithPrograms(open_class(lab, names, words))) as it:
        try:
            return play(it, bots, words, folder)
        except OSError as error:
            raise Fault(f"{error.filename or folder}: {error.strerror}; name another folder by --into", 4) from None


def open_private(path: str, flags: int) -> int:
    """Opens a file with these flags, and returns its descriptor. A new file can be read only by its owner. Used as the
    `opener` of `open`."""
    return os.open(path, flags, 0o600)


def play(it: ClassWithPrograms, bots: list[Bot], words: argparse.Namespace, folder: Path) -> int:
    """Starts the bots, and runs the class to its end. The files of the run are in `folder`. Returns the exit status.
    Raises `OSError` or `Fault` if a file can't be written, and `Fault` if a bot can't be started."""
    lab, names, tell = it.playing.lab, it.playing.programs, Teller(folder)
    practice = Practice(it.playing, tell, words.timeout if bots else None)
    for number in (signal.SIGINT, signal.SIGTERM, signal.SIGHUP):
        signal.signal(number, lambda *_: setattr(practice, "stop", True))
    files = [folder / f"{name}.slip" for name in names]
    for name, file in zip(names, files):
        with open(file, "x", encoding="utf-8", opener=open_private) as slip_file:
            slip_file.write("".join(f"{line}\n" for line in slips.slip(lab, name, it.playing.relay.port)))
    tell(f"network: {words.family}, {plural(len(lab.nodes), 'node')}; start: {words.start}; daemon: {words.daemon.spelled()}; " + "; ".join(
        f"{f'nodes of {name}' if len(names) > 1 else 'your nodes'}: {', '.join(map(str, lab.nodes_of(name)))}" for name in names))
    if words.own_rule:
        tell(OWN_RULE)
    if not bots:
        client = os.path.relpath(TOP / "classroom/client.py")
        tell(f"the class is at port {it.playing.relay.port}; start your bot with the slip {files[0]}, or type requests by hand: python3 {client} {files[0]}")
    for name, bot, slip in zip(names, bots, files):
        it.kept.append(RunningBot(bot, slip.resolve(), Path.cwd(), None, MEGABYTES))
        practice.kept.append((name, it.kept[-1]))
    with served(practice, lab, names[0], words.page):
        stable = practice.run()
    it.stop_programs()  # From now on nobody answers them.
    if stable:
        pairs = ", ".join(f"{a}-{b}" for a, b in it.playing.report["pairs"])
        tell(f"the network is stable; pairs: {pairs or 'none'}; {practice.recovery.in_words(len(lab.nodes), len(lab.links))}")
    write_run(it.playing, folder, tell)
    for name in names:
        tell(practice.summary(name))
    return 0 if stable else WARNED


@contextlib.contextmanager
def served(practice: Practice, lab: labs.Lab, name: str, is_asked: bool) -> Iterator[None]:
    """Serves the page on which the student `name` of a lab plays by hand while the class of `practice` runs. Then ends
    the class, which is the reason that an open page shows. Does nothing if `is_asked` isn't set. Prints the page's
    address. The student's key is after the `#` there, and browsers don't send that part. Raises `Fault` if no port is
    free."""
    if not is_asked:
        yield
        return
    hands = by_hand.open_play_page(PAGE_PORT, f"practise, {len(lab.nodes)} nodes", lab)
    hands.show(practice.playing.relay.port, practice.tell)
    practice.tell(f"page to play on: {hands.address}#name={name}&key={lab.students[name]}")
    try:
        yield
        practice.playing.relay.end_class()  # An open page asks the class once more, but from now on nobody would answer.
    finally:
        hands.stop()


@dataclass
class ClassWithPrograms:
    """A class and its running programs, so that all of them can be ended together."""

    playing: Playing
    kept: list[RunningBot] = field(default_factory=list)

    def stop_programs(self) -> None:
        """Ends the programs."""
        for each in self.kept:
            each.stop()

    def close(self) -> None:
        """Ends the programs and the class."""
        self.stop_programs()
        self.playing.end()
