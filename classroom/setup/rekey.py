"""`./class key`: gives a student another key and slip during a course. A *slip* has the data that a student needs to
connect."""
from __future__ import annotations

import argparse
import dataclasses
import re
from dataclasses import dataclass
from pathlib import Path

from classroom.core import classes
from classroom.core import lab as labs
from classroom.core.folders import Record, of_folder
from classroom.core.program import CLASS, Fault
from classroom.door.routes import network
from classroom.setup import keys, positions, printed, slips
from classroom.setup.slips import FIRST_PORT, Way


def add_words(words: argparse.ArgumentParser) -> None:
    """Adds the arguments of `key` to its parser."""
    words.add_argument("lab", metavar="LAB", help="the file of the lab, or the folder of a run or a class with this lab")
    words.add_argument("name", metavar="NAME", help="the student's name in the lab")
    words.set_defaults(work=rekey)


def changed(path: Path, name: str, key: str) -> str:
    """Returns the text of the lab in a file, with `key` as the key of the student `name` and no other change. Raises
    `Fault` if there is no such student, or if the old key isn't written on a line of its own."""
    before = labs.document(path)
    text = path.read_text(encoding="utf-8-sig")
    index = next((index for index, each in enumerate(before["student"]) if each["name"] == name), None)
    if index is None:
        there = ", ".join(each["name"] for each in before["student"])
        raise Fault(f"{path}: this lab has no student called {name}. Its students are: {there}")
    table = positions.table(text, "student", index)
    old = labs.quoted(before["student"][index]["key"])
    lines = text.splitlines(keepends=True)
    if table is not None and "key" in table.keys:
        at = table.keys["key"] - 1
        lines[at] = re.sub(rf"(\bkey\s*=\s*){re.escape(old)}", lambda found: str(found[1]) + labs.quoted(key), lines[at], count=1)
    after = "".join(lines)
    before["student"][index]["key"] = key
    # Only the key may differ from the old document, however the file was written.
    if labs.parsed(after) != before:
        raise Fault(f"{path}: the key of {name} can't be changed by this command, since it isn't written as `key = \"..\"` on one line. Change it by hand")
    return after


def files_of(word: str) -> tuple[list[Path], Path, Record | None]:
    """Returns three values about the lab that `word` names, by its file or the folder of a run. The values are all
    files with a copy of the lab, the file beside which its slips are, and the content of the run's file `run.json`. The
    last value is None if `word` names a lab's file or the run has no such file. Raises `Fault` if the folder isn't that
    of a run."""
    path = Path(word)
    if not path.is_dir():
        return [path], path, None
    kept, _ = of_folder(path)
    record = Record.read(path)
    own = Path(record.lab) if record is not None else kept
    return [kept, *([own] if own.is_file() and own != kept else [])], own, record


@dataclass(frozen=True)
class Changed:
    """A student's new key: the files that have it, and the slip."""

    key: str
    files: list[Path]
    slip: Path


def change(word: str, name: str) -> Changed:
    """Changes the key of the student `name` in the lab's file and in the run's copy of it. Writes the student's slip
    again, and the page with all slips if there is one. `word` names the lab's file or the folder of a run. Raises
    `Fault` if the lab has no such student, or a file can't be read or changed."""
    files, own, record = files_of(word)
    labs.read(files[0])  # Raises `Fault` if the program refuses the lab.
    key = keys.for_people()
    # The dict has the new texts of all files before the first file is replaced, so after an error no file is changed.
    for file, text in {file: changed(file, name, key) for file in files}.items():
        slips.replace(file, text)
    lab = labs.read(files[0])
    folder = slips.folder_of(own)
    way = Way.read(own) or Way(FIRST_PORT, network(own))
    # Without a door, students connect to the port of the run, which may be another one than on their earlier slips.
    way = dataclasses.replace(way, port=record.port) if record and not way.door else way
    folder.mkdir(mode=0o700, exist_ok=True)
    slips.replace(folder / f"{name}.slip", slips.text(lab, name, way))
    if slips.page_of(own).is_file():
        slips.replace(slips.page_of(own), printed.page(lab, way))
    return Changed(key, files, folder / f"{name}.slip")


def rekey(words: argparse.Namespace) -> int:
    """Gives a student another key, prints the files that have it, and returns the exit status. A run that is going on
    still accepts only the old key. Raises `Fault` if the lab has no such student, if several networks of a class have
    one, or if a file can't be read or changed."""
    words.lab = str(classes.run_of(Path(words.lab), words.name))
    it = change(words.lab, words.name)
    _, _, record = files_of(words.lab)
    print(f"{words.name} has a new key in {', '.join(map(str, it.files))}. The new slip is {it.slip}")
    if record is not None and record.goes_on():
        print("a run of this lab is going on, and still accepts only the old key. To change the key there, too, type `key NAME` in the terminal of `run`")
    elif record is not None:
        print(f"to continue the run: {CLASS} run --resume {words.lab}{' --again' if record.ended else ''}")
    return 0
