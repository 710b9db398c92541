"""`./class new`: makes labs from a class list, with slips for each. A *lab* is the file that defines a network with its
students, and a *slip* has the data that a student needs to connect. The *way* into a network is what all its slips have
in common. The *house* is a student without a person, who may play for absent students. A *seat* is one of the
connections that a server can have at the same time, and a *door* is a TLS port for students on other machines. In all
functions here, `words` are the arguments of the command line."""
from __future__ import annotations

import argparse
import contextlib
import itertools
import os
import random
import shlex
import shutil
import tempfile
from collections.abc import Iterator
from dataclasses import dataclass
from pathlib import Path

from classroom.core import lab as labs
from classroom.core import bounds, limits, lists, networks
from classroom.core.lists import Person
from classroom.core.program import CLASS, Fault, call, program
from classroom.core.statuses import LAB
from classroom.door import certificate
from classroom.setup import dealing, handing, keys, names, printed, shaking, slips
from classroom.setup.slips import Way


def set_registers(made: labs.Lab, word: str, chance: random.Random) -> None:
    """Sets the registers of a lab at the beginning, as `word` says: `clean`, all `random`, random at one node in three
    (`hurt`), or `worst`, the worst known start. With `hurt`, p isn't null if the node has a neighbour. `chance` makes
    the random choices."""
    if word == "worst":
        registers = {node: (p, m) for node, p, m in shaking.longest_start([node.id for node in made.nodes], made.links)}
        for node in made.nodes:
            node.p, node.m = registers[node.id]
        return
    near = networks.neighbours((node.id for node in made.nodes), made.links)
    count = {"clean": 0, "random": len(made.nodes), "hurt": (len(made.nodes) + 2) // 3}[word]
    for node in chance.sample(made.nodes, count):
        node.p = chance.choice([None, *near[node.id]]) if word == "random" or not near[node.id] else chance.choice(near[node.id])
        node.m = chance.choice([True, False])


def make(words: argparse.Namespace, people: dict[str, Person], chance: random.Random) -> labs.Lab:
    """Returns the lab that the arguments `words` describe, for the students in `people`, which has them by their names
    in the lab. `chance` makes the random choices. Raises `Fault` if the arguments name no network, there are fewer
    students than owners of a node, or the lab would exceed a limit."""
    students = list(people)
    require_limits(words, len(students))
    if words.links:
        identifiers, links = networks.from_file(Path(words.links), words.nodes)
    else:
        count, links = networks.family(words.family, words.nodes, len(students), chance)
        identifiers = list(range(1, count + 1))
    nodes = dealing.deal(identifiers, students, 2 if words.pairs else 1)
    known = {name: keys.for_people() for name in students}
    if words.stand_in:
        known[labs.HOUSE] = keys.for_programs()
        for node in nodes:
            node.owners.append(labs.HOUSE)
    teacher = names.lab_name(words.teacher) or "teacher", keys.for_programs()
    most = limits.allowed()
    made = labs.Lab(words.events or most.events, words.sessions or most.sessions, teacher, known, nodes, links, people)
    set_registers(made, words.start, chance)
    return made


def require_limits(words: argparse.Namespace, students: int) -> None:
    """Raises `Fault` if a lab can't have this number of students, or the events or seats that the arguments `words` ask
    for. With `--stand-in` the house counts as one more student."""
    most = limits.allowed()
    everybody, house = students + bool(words.stand_in), ", one of them the house" if words.stand_in else ""
    if everybody > most.students:
        raise Fault(f"this lab would have {everybody} students{house}, but a lab can have at most {most.students}. "
                    "Make several labs by --groups")
    limited = ("--events", words.events, most.events), ("--sessions", words.sessions, most.sessions)
    for option, asked, allowed in limited:
        if asked and asked > allowed:
            raise Fault(f"{option} {asked}: a lab can have at most {allowed}. Write a lower number", LAB)


@dataclass(frozen=True)
class Made:
    """A new lab with the file that it is for, and the program's line about its size."""

    lab: labs.Lab
    file: Path
    size: str


def files(path: Path, count: int) -> list[Path]:
    """Returns the files for `count` labs: `path` with the ending .toml, or several with numbers in their names. Raises
    `Fault` if `path` can't be a file's name."""
    name = path.name.removesuffix(".toml")
    if not name.strip("."):
        raise Fault(f"{path} isn't a file name of the form NAME.toml")
    numbers = [""] if count == 1 else [f"-{number}" for number in range(1, count + 1)]
    return [path.with_name(f"{name}{number}.toml") for number in numbers]


def merge_of(path: Path) -> Path:
    """Returns the file for the table of a mail merge, which all labs share. `path` is the lab's file that the command
    line names."""
    return path.with_name(f"{path.name.removesuffix('.toml')}-slips.csv")


def checked_size(made: labs.Lab, wanted: Path) -> str:
    """Returns the program's line about the size of the lab `made`. Raises `Fault` if the program refuses the lab, or it
    can't be written. Writes only a temporary file; `wanted` is the lab's own file, which the error names."""
    with tempfile.TemporaryDirectory() as room:
        file = Path(room, "lab.toml")
        try:
            labs.write_new(file, labs.text(made))
        except Fault as fault:
            raise Fault(str(fault).replace(str(file), str(wanted)), fault.status) from None
        answer = call("check", file)
    if answer.status != 0:
        raise Fault(f"no lab can be made from this list and these options ({answer.error})", answer.status)
    return labs.with_house_apart(answer.output.strip().removeprefix("ok: "), made)


def write(made: Made, way: Way, page: str, done: list[Path]) -> None:
    """Writes the files of the lab `made`: the lab, its slips, and `page`, the HTML page with its slips. `way` is the
    way into its network. Appends each written file or folder to `done`. Raises `Fault` if one of them can't be
    written."""
    for file, content in ((made.file, labs.text(made.lab)), (slips.page_of(made.file), page),
                          (slips.teacher_of(made.file), slips.text(made.lab, made.lab.teacher[0], way))):
        labs.write_new(file, content)
        done.append(file)
    slips.write_all(made.lab, way, slips.folder_of(made.file))
    done.append(slips.folder_of(made.file))


@contextlib.contextmanager
def all_or_none() -> Iterator[list[Path]]:
    """Yields a list, to which the caller appends the files and folders that it writes. Removes all of them if something
    fails."""
    done: list[Path] = []
    try:
        yield done
    except BaseException:
        for path in done:
            if path.is_dir():
                shutil.rmtree(path)
            else:
                path.unlink()
        raise


def new(words: argparse.Namespace) -> int:
    """Makes the labs and their slips, after checking that all of them can be made. Prints a summary and the next
    commands. Returns the exit status. Raises `Fault`, and leaves no file, if one of them can't be made."""
    program()  # Raises `Fault` at the beginning if the program isn't built.
    people = lists.read(Path(words.students), words).people
    chance = random.Random(words.seed)
    if words.pairs and words.stand_in:
        raise Fault("--stand-in and --pairs can't be used together: both give each node a second owner, and a node has at most two owners")
    everywhere = names.all_of(people, [names.lab_name(words.teacher) or "teacher", labs.HOUSE])
    parts = dealing.parts(everywhere, words.groups, words.groups_by)
    where = files(Path(words.lab), len(parts))
    merge = merge_of(Path(words.lab))
    for file in itertools.chain([merge], *((lab, slips.page_of(lab), slips.teacher_of(lab), slips.folder_of(lab)) for lab in where)):
        if os.path.lexists(file):
            raise Fault(f"{file} exists already, and isn't overwritten. Name another lab, or move this file away")
    every = [make(words, {name: everywhere[name] for name in part.names}, chance) for part in parts]
    if words.strict:
        refuse_idle(every, words)
    made = [Made(lab, file, checked_size(lab, file)) for lab, file in zip(every, where, strict=True)]
    ways = write_all(words, made, [part.room for part in parts], merge)
    print_summary(words, made, ways, len(everywhere))
    print(f"\nnext: {next_steps(words, made, merge)}")
    return 0


def write_all(words: argparse.Namespace, made: list[Made], rooms: list[str], merge: Path) -> list[Way]:
    """Writes the labs in `made` and all their slips, and the table for a mail merge into the file `merge`. With
    `--door`, also makes the door's certificate if it is missing. `words` are the arguments, and `rooms` has the room of
    each lab. Returns the way into each network. If one of the files can't be written, removes the others and raises
    `Fault`."""
    with all_or_none() as done:
        file = words.certificate or certificate.beside(made[0].file)
        is_new = bool(words.door) and not os.path.lexists(file)
        ways = handing.ways(words, [it.file for it in made], rooms)
        done += [file] if is_new else []
        pages = [printed.page(it.lab, way) for it, way in zip(made, ways, strict=True)]
        for it, way, page in zip(made, ways, pages, strict=True):
            write(it, way, page, done)
        labs.write_new(merge, handing.merge_table([(it.lab, way, it.file) for it, way in zip(made, ways, strict=True)]))
    return ways


def print_summary(words: argparse.Namespace, made: list[Made], ways: list[Way], everybody: int) -> None:
    """Prints the labs in `made` with their slips, notes about them, and the table of students. `words` are the
    arguments, `ways` has the way into each network, and `everybody` is the number of all students."""
    for it in made:
        print(f"{it.file}: {it.size}; slips for printing: {slips.page_of(it.file)}; for programs: {slips.folder_of(it.file)}")
        print(f"  {dealing.counts(it.lab)}")
        tell_seats(it.lab, everybody, words)
        tell_few(it.lab)
        tell_idle(it.lab, words)
    if words.door and not printed.has_squares(ways[0]):
        print(f"note: {printed.NO_SQUARE}")
    print()
    for line in dealing.table({way.network: it.lab for it, way in zip(made, ways, strict=True)}, {way.network: way.room for way in ways}):
        print(line)


def next_steps(words: argparse.Namespace, made: list[Made], merge: Path) -> str:
    """Returns the text that says what to do next, with the commands. `words` are the arguments of `./class new`, and
    `made` are the new labs. `merge` is the path of the table for a mail merge, which names the file of each student's
    slip."""
    every = " ".join(shlex.quote(str(it.file)) for it in made)
    pages = " ".join(str(slips.page_of(it.file)) for it in made)
    door = f" --door {words.door.rpartition(':')[2]}" if words.door else ""
    own = f"{slips.teacher_of(made[0].file)} is" if len(made) == 1 else f"the files {str(merge).removesuffix('-slips.csv')}-*-teacher.slip are"
    return (f"print {pages}, or send each student the slip that {merge} names; {own} for you alone. Then type:\n"
            f"  {CLASS} check {made[0].file}\n  {CLASS} run {every} --page{door or ' --play'}")


def tell_seats(made: labs.Lab, everybody: int, words: argparse.Namespace) -> None:
    """Prints a note if the students of a lab can't all have a seat at once. `words` are the arguments, and `everybody`
    is the number of all students. Without `--groups-by`, the note says how many labs would be enough for everybody.
    With it, the rooms' sizes matter too, so the note only asks for more labs."""
    students = len(made.without_house().students)
    if made.sessions < students + 1 and words.groups_by:
        print(f"note: this lab has {made.sessions} seats for {students} students and a teacher. With a higher number of --groups, everybody gets a seat")
    elif made.sessions < students + 1:
        print(f"note: this lab has {made.sessions} seats for {students} students and a teacher. "
              f"With --groups {-(-everybody // limits.allowed().seats)}, everybody gets a seat")


def tell_few(made: labs.Lab) -> None:
    """Prints a note if the events of a lab may run out before its network is stable. Prints none if the lab has as many
    events as a lab may have, which are enough for each network."""
    if made.events == limits.allowed().events:
        return
    least = bounds.of_lab(made).events
    if made.events < least:
        print(f"note: {made.events} events may be too few. The moves and closed steps until the network is stable need at most {least}")


def without_node(made: labs.Lab, words: argparse.Namespace) -> str:
    """Returns a text that names the students of a lab who have no node, and the option for a network that has enough
    nodes. `words` are the arguments, from which the network was made. Returns an empty text if each student has a
    node."""
    shown = made.without_house()
    idle = [name for name in shown.students if not shown.nodes_of(name)]
    if not idle:
        return ""
    need = -(-len(shown.students) // (2 if words.pairs else 1))
    more = f"a file with {need} nodes" if words.links else networks.option_for(words.family, need)
    return f"these get no node: {', '.join(idle)}. With {more}, each student gets one"


def tell_idle(made: labs.Lab, words: argparse.Namespace) -> None:
    """Prints a warning if a lab, which was made from the arguments `words`, has students without a node."""
    idle = without_node(made, words)
    if idle:
        print(f"WARNING: there are more students than nodes; {idle}")


def refuse_idle(made: list[labs.Lab], words: argparse.Namespace) -> None:
    """Raises `Fault` if one of the labs, which were made from the arguments `words`, has students without a node."""
    for lab in made:
        idle = without_node(lab, words)
        if idle:
            raise Fault(f"--strict: there are more students than nodes; {idle}")
