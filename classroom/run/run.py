"""`./class run`: starts a server with its own folder and a desk that closes steps, and writes marks at the end.

The *desk* is the teacher's connection to the server, and the *house* plays for absent students. The *daemon* decides
when a step is closed. A *slip* is a file with what a student needs to connect. A *record* is the file `run.json` in the
folder of a run, by which other processes find it.
"""
from __future__ import annotations

import argparse
import shutil
from collections.abc import Sequence
from pathlib import Path

from classroom.client import NoSlip, port_of
from classroom.core import lab as labs
from classroom.core.classes import Class, is_class
from classroom.core.counts import seconds
from classroom.core.folders import Record, going, new_folder, of_folder
from classroom.core.program import CLASS, Fault
from classroom.run import class_again, closing, house, letting, server
from classroom.run.clock import end_of, time_of_day
from classroom.run.daemons import FORMS
from classroom.run.holding import Running, to_the_end
from classroom.run.several import side_by_side
from classroom.run.teller import Teller
from classroom.setup.slips import FIRST_PAGE, FIRST_PORT, Way, page_of

PLAY = FIRST_PAGE  # the port of the page on which students play
CLOSING = closing.closing("when-idle:2")


def port(word: str) -> int:
    """Returns the port that an argument names. Raises `ArgumentTypeError` if it names none."""
    try:
        return port_of(word)
    except NoSlip as error:
        raise argparse.ArgumentTypeError(str(error)) from None


def seconds_with_unit(word: str) -> float:
    """Returns the number of seconds in an argument, such as `20s` or `20`. Raises `ArgumentTypeError` for any other
    text, and for 0."""
    return seconds(word.removesuffix("s"))


def add_desk_words(words: argparse.ArgumentParser) -> None:
    """Adds the options that all commands with a desk have to a parser."""
    words.add_argument("--daemon", "--close", dest="close", type=closing.mode, metavar="D",
                       help=f"how steps are closed (docs/COURSE.md): {FORMS} (when-idle:2)")
    words.add_argument("--stand-in", type=seconds_with_unit, metavar="20s",
                       help="let the house ask for a move if a rule could be applied at a node for this time and nobody asked for it; the house begins "
                            "when a first student has said hello")
    words.add_argument("--ends", type=time_of_day, metavar="HH:MM", help="end the run at this time of the day, and warn before it")
    words.add_argument("--anonymous", action="store_true", help="show numbers in place of names on the pages for the projector")
    words.add_argument("--until", choices=["stable"], help="end the run when no rule can be applied at any node")
    words.add_argument("--page", type=port, nargs="?", const=4780, metavar="PORT",
                       help="serve a page of the run, for the projector, at this port or the next free one (4780)")
    words.add_argument("--play", type=port, nargs="?", const=PLAY, metavar="PORT",
                       help="serve a page on which students play by hand, at this port or the next free one (4790)")
    words.add_argument("--typed", action="store_true", help="read commands from standard input even if it isn't a terminal")


def add_words(words: argparse.ArgumentParser) -> None:
    """Adds the options of `run` to its parser."""
    words.add_argument("labs", nargs="*", metavar="LAB",
                       help="the lab; several labs are the networks of one class, each with its own port, and with one desk and one folder")
    words.add_argument("--rooms", metavar="ROOM,..", help="with several labs: the room of each, which the table at the start and the page show")
    words.add_argument("--resume", metavar="FOLDER", help="resume the run or the class in this folder, whose server has ended")
    words.add_argument("--again", action="store_true",
                       help="with --resume: also resume a run that was ended on purpose; its audit, page and marks are made again")
    words.add_argument("--port", type=port, help="use this port for students, or the next free one (the port on the slips, or 4711)")
    words.add_argument("--into", default="runs", help="the folder in which the run's folder is made (runs)")
    words.add_argument("--serve", action="store_true",
                       help="use the server `mml serve`, which accepts only as many connections in all as the lab has sessions")
    words.add_argument("--beside", action="store_true", help="start the class even if another run of this lab is going on")
    letting.add_words(words)
    add_desk_words(words)
    words.set_defaults(work=run)


def run_lab(words: argparse.Namespace) -> int:
    """Runs the only lab that the arguments name, from making its folder to its marks. Returns the exit status. Raises
    `Fault` if the run can't be started, and then removes its folder if it has no events."""
    lab_file, into = Path(words.labs[0]), Path(words.into)
    server.require_built(words.serve)
    lab = labs.read(lab_file)
    check_stand_in(words, lab, lab_file)
    ends = end_of(words.ends)
    if not words.beside:
        refuse_second_run(into, lab_file)
    folder = new_folder(into, lab_file)
    (folder / "lab.toml").touch(0o600)  # The file has keys, so only its owner may read it.
    (folder / "lab.toml").write_bytes(lab_file.read_bytes())
    run = Running(folder, lab_file, lab, words.close or CLOSING, words.until, words.page, words.typed, Teller(folder),
                  words.play, by_number=words.serve, stand_in=words.stand_in, ends=ends, anonymous=words.anonymous)
    try:
        with letting.door(words, [lab_file], run.tell) as run.door:
            return to_the_end(run, lambda: start_server(run, words.ports[0]))
    except Fault:
        if not (folder / "journal").exists() or (folder / "journal").stat().st_size == 0:
            shutil.rmtree(folder)
        raise


def check_stand_in(words: argparse.Namespace, lab: labs.Lab, file: Path) -> None:
    """Raises `Fault` if the arguments have the option --stand-in, but the lab in a file has no house, or the arguments
    also have --serve."""
    if words.stand_in is not None:
        house.require_house(lab, file)
        if getattr(words, "serve", False):
            raise Fault("--stand-in can't be used with --serve, because each move of the house would use up one of the connections")


def resume(words: argparse.Namespace) -> int:
    """Continues the run, or the class of several runs, in the folder of `--resume`, with its lab, journal, ports, page
    and daemon. Options of the command line override these. Returns the exit status. Raises `Fault` if the run is still
    going on, if it was ended on purpose and `--again` isn't given, or if it can't be continued."""
    folder = Path(words.resume)
    if words.door is not None and words.play is None:
        words.plays = kept_plays(folder)  # The door leads to these pages.
        words.play = words.plays[0]
    if is_class(folder):
        return class_again.hold_again(words, folder)
    lab_file, _ = of_folder(folder)
    record = Record.read(folder) or Record.default(folder, words.port or FIRST_PORT)
    if record.goes_on():
        raise Fault(f"{folder}: this run is still going on. To control it, type: {CLASS} attach {folder}")
    if record.ended and not words.again:
        raise Fault(f"{folder}: this run was ended. If you want to continue it, add --again; its audit, page and marks are then made again")
    lab = labs.read(lab_file)
    check_stand_in(words, lab, lab_file)
    run = Running(folder, Path(record.lab), lab, words.close or closing.kept_daemon(folder, record),
                  words.until or record.until, words.page or record.page, words.typed, Teller(folder),
                  words.play or record.play, is_continued=True, stand_in=words.stand_in or record.stand_in,
                  looks=record.looks, played=record.played, ends=end_of(words.ends, record.ends), anonymous=words.anonymous or record.anonymous)
    with letting.door(words, [run.lab_file], run.tell, record.door) as run.door:
        return to_the_end(run, lambda: start_server(run, record.port, record))


def refuse_second_run(into: Path, lab_file: Path) -> None:
    """Raises `Fault` if a run of the lab below the folder `into` is going on, or if the last one didn't end."""
    found = going(into, lab_file)
    if found is None:
        return
    folder, record = found
    if not record.goes_on():
        how = f"To continue it, type: {CLASS} run --resume {folder} . "
        raise Fault(f"the last run of {lab_file} was interrupted. {how}To start another run instead, add --beside to "
                    "the command that you typed")
    where = f"a run of {lab_file} is still going on, at port {record.port} and in the folder {folder}"
    how = "" if record.run.lives() and not record.left else f"To control it, type: {CLASS} attach {folder} . "
    raise Fault(f"{where}. {how}To start another run beside it, add --beside")


def start_server(run: Running, port_asked: int, record: Record | None = None) -> server.Server:
    """Starts the server of a run at the port `port_asked` or the next free one, prints its ports and its folder, and
    returns it. `record` is that of a run that continues. Raises `Fault` if no server can be started."""
    letting.route_to(run.door, run.lab_file, run.folder)
    by_number = run.lab.sessions if run.by_number else None
    it = server.start(run.folder, run.folder / "lab.toml", port_asked, run.folder / "journal", by_number, record)
    slips = page_of(run.lab_file)
    if slips.exists():
        run.tell(f"slips: {slips}")
    if it.port != port_asked:
        run.tell(f"port {port_asked} is in use, so the server has port {it.port}; students have to use this one, whatever their slips say")
    seats = f"at most {run.lab.sessions - 1} students at once" if it.hosted else \
        f"{run.lab.sessions} connections in all, including the teacher's"
    run.tell(f"port {it.port}, for {seats}; folder {run.folder}")
    if it.hosted:
        run.tell(f"desk at port {it.desk}, only for the teacher")
    return it


def kept_plays(folder: Path) -> list[int]:
    """Returns the port of the page to play for the run in a folder, or for each run of the class in it. The ports are
    those that the pages had before. If there was no such page, they are the ports on the slips, or consecutive ones
    from PLAY on. Raises `Fault` if the file that describes the class is damaged."""
    found = Class.read(folder)
    runs = [(folder / network.name, Path(network.lab)) for network in found.networks] if found else [(folder, folder / "lab.toml")]
    known: list[int | None] = []
    for own, lab in runs:
        record = Record.read(own)
        way = Way.read(Path(record.lab) if record else lab)
        known.append(record.play if record and record.play is not None else way.page if way else None)
    return ports_for(None, PLAY, known)


def ports_for(asked: int | None, default: int, known: Sequence[int | None]) -> list[int]:
    """Returns a port for each lab. If `asked` isn't None, these are consecutive ports from `asked` on. Otherwise the
    ports are those in `known` if each lab has one and all differ, or else consecutive ports from `default` on. `known`
    has for each lab the port on its slips, or None if that isn't known."""
    ports = [port for port in known if port is not None]
    if asked is None and len(set(ports)) == len(known):
        return ports
    return [(asked or default) + index for index in range(len(known))]


def run(words: argparse.Namespace) -> int:
    """Runs a lab, runs several side by side, or resumes a run. Returns the exit status. Raises `Fault` if options don't
    go together, or if the run can't be started."""
    if bool(words.labs) == bool(words.resume):
        raise Fault("run: name either one or more labs, or the folder of a run by --resume FOLDER")
    if words.again and not words.resume:
        raise Fault("run: --again can only be used together with --resume FOLDER")
    if words.rooms and len(words.labs) < 2:
        raise Fault("run: --rooms can only be used with several labs")
    if words.resume:
        return resume(words)
    if words.door is not None and words.play is None:
        words.play = PLAY  # The addresses on the slips have this port.
    ways = [Way.read(Path(lab)) for lab in words.labs]
    words.ports = ports_for(words.port, FIRST_PORT, [way.port if way else None for way in ways])
    # PLAY is also the port of --play without a number, so then the ports on the slips come first.
    words.plays = ports_for(None if words.play == PLAY else words.play, PLAY, [way.page if way else None for way in ways])
    words.play = None if words.play is None else words.plays[0]
    return run_lab(words) if len(words.labs) == 1 else side_by_side(words)
