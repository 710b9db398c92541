"""A lab's file: reading and writing it. A lab defines a network with its first registers, the students who own the
nodes, the teacher, and the limits of a run. The *journal* of a run is the file with its events. The *house* is a
student without a person, who may play for absent students."""
from __future__ import annotations

import json
import os
import tomllib
from dataclasses import dataclass, field, replace
from pathlib import Path
from typing import Any

from classroom.core.lists import Person
from classroom.core.program import CLASS, Fault, call

HOUSE = "house"  # the student who plays for absent ones


@dataclass
class Node:
    """A node with its owners, and its registers at the beginning."""

    id: int
    owners: list[str]
    p: int | None = None
    m: bool = False


@dataclass
class Lab:
    """The values in a lab's file. `events` is the most events of a run, and `sessions` the most connections at the same
    time. `teacher` is a name and a key, and `students` has the key of each name. `people` has the persons of the class
    list, by the names of the students."""

    events: int
    sessions: int
    teacher: tuple[str, str]
    students: dict[str, str]
    nodes: list[Node]
    links: list[tuple[int, int]] = field(default_factory=list)
    people: dict[str, Person] = field(default_factory=dict)

    def owners(self, node: int) -> list[str]:
        """Returns the owners of the node with that identifier, or an empty list if there is no such node."""
        return next((each.owners for each in self.nodes if each.id == node), [])

    def nodes_of(self, name: str) -> list[int]:
        """Returns the identifiers of the nodes of the student `name`."""
        return [node.id for node in self.nodes if name in node.owners]

    def house_nodes(self) -> list[int]:
        """Returns the nodes at which the house may play: those that it owns together with one student. Returns none if
        the house owns a node in another way, since such a house is an ordinary student."""
        nodes = [node for node in self.nodes if HOUSE in node.owners]
        return [node.id for node in nodes] if all(len(node.owners) == 2 for node in nodes) else []

    def without_house(self) -> Lab:
        """Returns the lab without the house as a student and as an owner. Returns the lab unchanged if the house may
        play nowhere."""
        if not self.house_nodes():
            return self
        students = {name: key for name, key in self.students.items() if name != HOUSE}
        nodes = [replace(node, owners=[name for name in node.owners if name != HOUSE]) for node in self.nodes]
        return replace(self, students=students, nodes=nodes)


def is_same(one: Lab, other: Lab) -> bool:
    """Returns whether two labs agree in all that a journal refers to. Keys and limits may differ."""
    return journal_parts(one) == journal_parts(other)


def journal_parts(lab: Lab) -> object:
    """Returns the parts of a lab that a journal refers to, for a comparison: names in their order, nodes with owners
    and registers, and links."""
    nodes = {node.id: (frozenset(node.owners), node.p, node.m) for node in lab.nodes}
    return lab.teacher[0], list(lab.students), nodes, {frozenset(link) for link in lab.links}


def ordered(link: tuple[int, int]) -> tuple[int, int]:
    """Returns the two ends of a link, the lower one first."""
    return min(link), max(link)


def parsed(text: str) -> dict[str, Any]:
    """Returns the document in a TOML text, or an empty one if the text isn't TOML. Python's reader supports TOML 1.0
    only."""
    try:
        return tomllib.loads(text)
    except tomllib.TOMLDecodeError:
        return {}


def document(path: Path) -> dict[str, Any]:
    """Returns the TOML document in a file. Raises `Fault` if the file can't be read or isn't TOML 1.0."""
    try:
        return tomllib.loads(path.read_text(encoding="utf-8-sig"))
    except OSError as error:
        raise Fault(f"{path}: {error.strerror}", 4) from None
    except UnicodeDecodeError:
        raise Fault(f"{path}: this file isn't a text in UTF-8. Save it as UTF-8", 2) from None
    except tomllib.TOMLDecodeError as error:
        raise Fault(f"{path}: Python can't read this file as TOML: {error}", 2) from None


def unread(path: Path, error: str) -> str:
    """Returns an error line about a file that the proved program couldn't read. The line has the system's reason if
    this process can't open the file either, and otherwise `error`, the program's own reason."""
    try:
        with path.open("rb"):
            return f"{path}: {error}"
    except OSError as why:
        return f"{path}: {why.strerror}"


def read(path: Path) -> Lab:
    """Returns the lab in a file, after the proved program has checked the file. Raises `Fault` if the file can't be
    read, if the program refuses it, or if the program isn't built."""
    answer = call("check", path)
    if answer.status == 4:
        raise Fault(unread(path, answer.error), 4)
    if answer.status != 0:
        raise Fault(f"{path}: the lab is refused ({answer.error}). Type `{CLASS} check {path}` to see where the mistake is", answer.status)
    it = document(path)
    nodes = [
        Node(each["id"], [each["owner"]] if "owner" in each else each["owners"], each.get("p"), each.get("m", False))
        for each in it["node"]
    ]
    students = {each["name"]: each["key"] for each in it["student"]}
    links = [(a, b) for a, b in it.get("links", [])]
    people = {each["name"]: Person(str(each.get("written", each["name"])), str(each.get("id", ""))) for each in it["student"]}
    return Lab(it["events"], it["sessions"], (it["teacher"]["name"], it["teacher"]["key"]), students, nodes, links, people)


def with_house_apart(line: str, lab: Lab) -> str:
    """Returns `line`, which the proved program has printed about the size of `lab`, changed so that the house is counted
    separately. The program counts the house as a student."""
    students = len(lab.without_house().students)
    return line.replace(f"{students + 1} students", f"{students} students and the house") if lab.house_nodes() else line


def quoted(word: str) -> str:
    """Returns a string in the syntax of TOML. The result is JSON too if the string is printable. Characters that aren't
    printable are escaped."""
    return "".join(char if char.isprintable() else escaped(char) for char in json.dumps(word, ensure_ascii=False))


def escaped(char: str) -> str:
    """Returns the escape sequence of a character in TOML."""
    return f"\\u{ord(char):04x}" if ord(char) < 0x10000 else f"\\U{ord(char):08x}"


def text(lab: Lab) -> str:
    """Returns the text of a lab's file for a lab."""
    lines = [f"events = {lab.events}", f"sessions = {lab.sessions}"]
    lines += ["links = [", *(f"  [{a}, {b}]," for a, b in lab.links), "]"] if lab.links else ["links = []"]
    lines += ["", "[teacher]", f"name = {quoted(lab.teacher[0])}", f"key = {quoted(lab.teacher[1])}"]
    for name, key in lab.students.items():
        lines += ["", "[[student]]", f"name = {quoted(name)}", f"key = {quoted(key)}"]
        person = lab.people.get(name)
        lines += [f"written = {quoted(person.written)}"] if person else []
        lines += [f"id = {quoted(person.id)}"] if person and person.id else []
    for node in lab.nodes:
        lines += ["", "[[node]]", f"id = {node.id}"]
        owners = ", ".join(map(quoted, node.owners))
        lines.append(f"owner = {owners}" if len(node.owners) == 1 else f"owners = [{owners}]")
        lines += [f"p = {node.p}"] if node.p is not None else []
        lines += ["m = true"] if node.m else []
    return "\n".join(lines) + "\n"


def write_new(path: Path, content: str) -> None:
    """Writes `content` into a new file that no other user can read. Raises `Fault` if the file exists already, and then
    leaves it unchanged. Also raises `Fault` if the file can't be written completely, and then removes it."""
    try:
        file = os.open(path, os.O_WRONLY | os.O_CREAT | os.O_EXCL, 0o600)
        try:
            with os.fdopen(file, "w", encoding="utf-8") as it:
                it.write(content)
        except BaseException:
            path.unlink()
            raise
    except FileExistsError:
        raise Fault(f"{path} exists already, and isn't overwritten. Name another file, or move this one away") from None
    except OSError as error:
        raise Fault(f"{path}: {error.strerror}", 4) from None
