"""The command line of `./class`: its subcommands and their options. A function that adds the options of a subcommand
imports its modules, so that a call imports only those of one subcommand."""
from __future__ import annotations

import argparse
import os
import subprocess
import sys
from collections.abc import Callable
from importlib import import_module
from typing import NoReturn

from classroom.core.building import set_up
from classroom.core.counts import positive
from classroom.core.printable import printable
from classroom.core.program import TOP, Fault
from classroom.core.statuses import FAILED, TABLE, USAGE
from classroom.run.typed import HELP


class Parser(argparse.ArgumentParser):
    """A parser that exits with the status USAGE if the command line is wrong."""

    def error(self, message: str) -> NoReturn:
        """Prints the message, and exits with the status of a wrong command line."""
        self.exit(USAGE, f"{self.prog}: {printable(message)}; {self.prog} --help prints what to type\n")


def version() -> str:
    """Returns a text with version, commit and toolchain, as `mml --version` prints them, or `of an unknown version` if
    it prints nothing."""
    said = subprocess.run([TOP / "mml", "--version"], stdin=subprocess.DEVNULL, capture_output=True, text=True, check=False)
    return said.stdout.strip().removeprefix("Cenduwa ") or "of an unknown version"


def add_new(words: argparse.ArgumentParser) -> None:
    """Adds the options of `new` to its parser."""
    from classroom.core import lists, networks
    from classroom.setup import handing, new

    words.add_argument("lab", help="the file of the lab, NAME.toml; the slips are NAME-slips.html")
    words.add_argument("--students", required=True, help="a file with one name per line, or a table (CSV) that a platform exported")
    lists.add_words(words)
    network = words.add_mutually_exclusive_group()
    network.add_argument("--family", default="cycle", help=f"the network: {networks.NAMED} (cycle)")
    network.add_argument("--links", help="a file with your own network: one link per line, such as 1 2")
    words.add_argument("--nodes", type=positive, help="the number of nodes (as many as students)")
    words.add_argument("--pairs", action="store_true", help="two owners for each node")
    words.add_argument("--stand-in", action="store_true", help="give each node a second owner, the house, which can play for absent students")
    words.add_argument("--start", choices=networks.STARTS, default="clean", help=f"{networks.STARTED} (clean)")
    words.add_argument("--seed", type=int, default=1, help="the seed of random networks and starts (1); keys don't depend on it")
    words.add_argument("--events", type=positive, help="the limit of events (as many as a lab may have)")
    words.add_argument("--sessions", type=positive, help="the number of seats, one of them the teacher's (as many as a lab may have)")
    words.add_argument("--teacher", default="teacher", help="the teacher's name")
    words.add_argument("--groups", type=positive, help="make this number of labs, each for a part of the class (1)")
    words.add_argument("--groups-by", metavar="COL",
                       help="the column of the table with each student's room: make separate labs for each room, enough to give every student a seat")
    words.add_argument("--email", metavar="COL", help="the column of e-mail addresses; they are copied to the table for a mail merge")
    words.add_argument("--strict", action="store_true", help="refuse the list if there are more students than nodes")
    handing.add_way(words)
    words.set_defaults(work=new.new)


# An example of each subcommand, and the commands that can be typed while `run` or `attach` runs.
TYPED = f"Commands that you can type while it runs: {HELP}."
EXAMPLES = {
    "new": "Example: class new maths.toml --students names.csv --family grid:4x3 --start hurt --stand-in",
    "check": "Example: class check maths.toml",
    "run": "Examples: class run maths.toml --until stable --page --stand-in 20s; class run maths-1.toml maths-2.toml --rooms A,B; "
           f"class run --resume runs/2026-11-24T1015-maths. {TYPED}",
    "slips": "Example: class slips maths-1.toml maths-2.toml --door class.example:4700",
    "key": "Example: class key runs/2026-11-24T1015-maths zoe-mueller",
    "attach": f"Example: class attach runs/2026-11-24T1015-maths. {TYPED}",
    "mark": "Example: class mark runs/*-maths --roster names.csv --total > marks.csv",
    "history": "Example: class history runs/2026-11-24T1015-maths zoe-mueller -o zoe.html",
    "play": "Example: class play runs/2026-11-24T1015-maths -o run.html",
    "practise": "Example: class practise 'python3 bot.py' --family grid:4x3 --node 5,6 --daemon synchronous",
    "grade": "Example: class grade 'python3 bot.py' Bot.java --suite full --json cases.json",
    "experiment": "Example: class experiment --family path,cycle --nodes 4..32/4 --runs 50 --csv runs.csv --plot runs.svg",
    "demo": "Example: class demo",
}


def add_mark(words: argparse.ArgumentParser) -> None:
    """Adds the options of `mark` to its parser."""
    from classroom.core import lists
    from classroom.marks import mark

    words.add_argument("runs", nargs="*", metavar="FOLDER.. or LAB JOURNAL..", help="folders of runs or of classes; or a lab and its journals")
    form = words.add_mutually_exclusive_group()
    form.add_argument("--csv", action="store_true", help="print the table as CSV, for a spreadsheet")
    form.add_argument("--json", action="store_true", help="print the table as JSON, for programs")
    form.add_argument("--total", action="store_true", help="one row for each person, with sums over all runs (CSV)")
    words.add_argument("--roster", metavar="FILE",
                       help="the class list: print its rows with the totals, for import into the platform")
    words.add_argument("--rule", metavar="FILE", help="a file of lines NAME = EXPRESSION, such as pass = applied_per_node >= 1: each adds a column")
    words.add_argument("--columns", action="store_true", help="explain each column in one line")
    words.add_argument("--second", action="store_true", help="count with the plain model too (docs/TRUST.md), and say whether both agree")
    lists.add_words(words)
    words.set_defaults(work=mark.mark)


def add_check(words: argparse.ArgumentParser) -> None:
    """Adds the options of `check` to its parser."""
    from classroom.setup import check

    words.add_argument("lab", help="the file of the lab")
    words.set_defaults(work=check.check)


def add_demo(words: argparse.ArgumentParser) -> None:
    """Adds the options of `demo` to its parser."""
    from classroom.run import demo

    words.add_argument("--into", default="runs", help="the folder in which the run's folder is made (runs)")
    words.set_defaults(work=demo.demo)


def add_play(words: argparse.ArgumentParser) -> None:
    """Adds the options of `play` to its parser."""
    from classroom.pages import play

    words.add_argument("run", nargs="+", metavar="FOLDER or LAB JOURNAL", help="the folder of a run; or a lab and its journal")
    words.add_argument("-o", "--output", help="the file to write (run.html, or with --svg PLACE.svg)")
    words.add_argument("--svg", type=play.places, metavar="PLACE,..",
                       help="draw the configuration after the event with the number PLACE as SVG (0 is the beginning), "
                            "or several in one picture")
    words.add_argument("--dark", action="store_true", help="draw the picture in the colours of a dark page")
    words.set_defaults(work=play.play)


def options_of(module: str) -> Callable[[argparse.ArgumentParser], None]:
    """Returns a function that imports `classroom.MODULE`, where MODULE is `module`, and adds that module's options to a
    parser. The module is imported only when the function is called."""
    def add(words: argparse.ArgumentParser) -> None:
        """Imports the module, and adds its options to the parser `words`."""
        import_module(f"classroom.{module}").add_words(words)

    return add


# The description of each subcommand, and the function that adds its options.
EACH: dict[str, tuple[str, Callable[[argparse.ArgumentParser], None]]] = {
    "new": ("make a lab from a list of students, and slips to print", add_new),
    "check": ("find mistakes in a lab, and print warnings about it", add_check),
    "run": ("run a class, or resume one; each run has a folder of its own", options_of("run.run")),
    "attach": ("control a class again after `run` was killed or its terminal was closed", options_of("run.attach")),
    "slips": ("make the slips of labs again, for example for another address of the door", options_of("setup.handing")),
    "key": ("give a student a new key and slip while no class is running", options_of("setup.rekey")),
    "mark": ("count the marks of each student from the journals of runs", add_mark),
    "history": ("show each line that a student sent, its reply, and the steps in between", options_of("marks.history")),
    "play": ("make a page that replays a run, or a picture of configurations", add_play),
    "practise": ("try a bot, or play by hand: built-in bots play the other nodes, and each denial is explained", options_of("bots.practise")),
    "grade": ("test bots in many cases, with limits on their time and memory", options_of("bots.grade")),
    "experiment": ("make many runs, and a table and a chart of their moves, closed steps and rounds", options_of("bots.experiment")),
    "demo": ("run a small class with four bots, and count its marks", add_demo),
}


def parser(asked: str | None = None) -> argparse.ArgumentParser:
    """Returns the parser with all subcommands. If `asked` is None, each has its options. Otherwise only the subcommand
    with the name `asked` has them, and the modules of the others aren't imported."""
    every = Parser(prog="class", description="Prepares, runs and marks classes, and tests bots.", epilog=TABLE)
    every.add_argument("--version", action="store_true", help="show version, commit and toolchain, and exit")
    each = every.add_subparsers(title="commands", required=True)
    for name, (what, add) in EACH.items():
        words = each.add_parser(name, help=what, description=what, epilog=EXAMPLES[name])
        if asked in (None, name):
            add(words)
    return every


def main(words: list[str] | None = None) -> int:
    """Runs the subcommand that the arguments name, those of the command line if `words` is None. Returns the exit
    status. If the subcommand fails, prints a line about the error, unless only its output was closed by a reader.
    Raises `SystemExit` if the arguments are wrong or ask for help."""
    given = sys.argv[1:] if words is None else words
    if given[:1] == ["--version"]:
        print(f"class {version()}")
        return 0
    asked = parser(next(iter(given), "")).parse_args(given)
    try:
        set_up()
        status: int = asked.work(asked)
        sys.stdout.flush()
        return status
    except Fault as fault:
        print(f"class: {printable(str(fault))}", file=sys.stderr)
        return fault.status
    except BrokenPipeError:  # The reader of the output has closed it. The flush when Python exits would fail again.
        with open(os.devnull, "w", encoding="utf-8") as nowhere:
            os.dup2(nowhere.fileno(), sys.stdout.fileno())
        return FAILED
    except OSError as error:
        print(f"class: {printable(str(error.filename or 'output'))}: {error.strerror}", file=sys.stderr)
        return FAILED
