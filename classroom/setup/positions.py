"""Finding the line of a table, key or link in the text of a lab, which is TOML, as labs are commonly written. Lines are
numbered from 1."""
from __future__ import annotations

import re
from dataclasses import dataclass, field

HEADER = re.compile(r"^\s*(\[{1,2})\s*([\w-]+)\s*\]{1,2}\s*(#.*)?$")
KEY = re.compile(r"^\s*\"?([\w-]+)\"?\s*=")
BRACKET_OR_KEY = re.compile(r"[][{}]|([\w-]+)\s*=")
IN_BRACES = ("teacher", "student", "node")  # the document's keys whose tables may be written in braces


@dataclass
class Table:
    """A table in the file: its name, its first line, and the line of each of its keys."""

    name: str
    line: int
    keys: dict[str, int] = field(default_factory=dict)


@dataclass
class Value:
    """The value of a key, while it is read line by line until its brackets are closed. The value's tables in braces are
    appended to a list."""

    name: str = ""  # the name of the key
    tables: list[Table] = field(default_factory=list)
    brackets: str = ""  # the opening brackets that aren't closed, the outermost first

    def take(self, number: int, text: str) -> None:
        """Reads `text`, the line with this number or the part of it after the key. Ignores tables within other tables
        in braces."""
        for found in BRACKET_OR_KEY.finditer(text):
            if found[0] in ("[", "{"):
                self.brackets += found[0]
                if found[0] == "{" and self.brackets.count("{") == 1:
                    self.tables.append(Table(self.name, number))
            elif found[0] in ("]", "}"):
                self.brackets = self.brackets[:-1]
            elif self.brackets.count("{") == 1:
                self.tables[-1].keys.setdefault(found[1], number)


def without_texts(line: str) -> str:
    """Returns a line of TOML without its comment and without the contents of its strings."""
    return re.sub(r"#.*", "", re.sub(r'"(\\.|[^"\\])*"|\'[^\']*\'', '""', line))


def tables(text: str) -> list[Table]:
    """Returns the tables in a lab's text, in their order. The first is the document itself. Tables in braces are
    included if they belong to one of its known keys. An unclosed bracket ends at the next header, or at a key outside
    braces."""
    found, value = [Table("", 1)], Value()
    current = found[0]
    for number, whole in enumerate(text.splitlines(), 1):
        line = without_texts(whole)
        header, key = HEADER.match(line), KEY.match(line)
        if header:
            current, value = Table(header[2], number), Value()
            found.append(current)
        elif key and "{" not in value.brackets:
            current.keys.setdefault(key[1], number)
            takes_tables = current is found[0] and key[1] in IN_BRACES
            value = Value(key[1], found if takes_tables else [])
            value.take(number, line[key.end():])
        elif value.brackets:
            value.take(number, line)
    return found


def table(text: str, name: str, index: int) -> Table | None:
    """Returns the table in a lab's text with this name and this index among the tables of that name, counted from 0, or
    None if there is none."""
    named = [each for each in tables(text) if each.name == name]
    return named[index] if index < len(named) else None


def link(text: str, index: int) -> int | None:
    """Returns the number of the line of `text`, a lab's file, with the link that has this index, counted from 0.
    Returns None if the file has no links. If it has some, but fewer than this, the result may be the line of a later
    bracket, since the end of the list isn't looked for."""
    inside, seen = False, 0
    for number, whole in enumerate(text.splitlines(), 1):
        line = without_texts(whole)
        start = re.match(r"^\s*links\s*=\s*\[(.*)", line)
        rest = start[1] if start else line if inside else ""
        inside = inside or start is not None
        seen += rest.count("[")
        if inside and seen > index:
            return number
    return None
