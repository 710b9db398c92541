"""Lists of people: one name per line, or tables that spreadsheets and learning platforms export. *Heads* are the names
of a table's columns, in its first row."""
from __future__ import annotations

import argparse
import codecs
import csv
import io
from collections.abc import Iterable
from dataclasses import dataclass, field
from pathlib import Path

from classroom.core.program import Fault

# The heads that identify a column if no option names it; those of platforms come first.
NAMES = ("name", "student", "full name", "fullname", "student name", "display name")
FIRST = ("first name", "firstname", "given name", "vorname")
LAST = ("last name", "lastname", "surname", "family name", "nachname")
IDS = ("sis user id", "id number", "student id", "student number", "matriculation", "matrikelnummer", "id", "username")
EMAILS = ("email address", "e-mail address", "email", "e-mail", "mail")
SHEETS = (".xlsx", ".xlsm", ".xls", ".ods", ".numbers")  # a spreadsheet's own files
MARKS = ((codecs.BOM_UTF8, "utf-8-sig"), (codecs.BOM_UTF16_LE, "utf-16"), (codecs.BOM_UTF16_BE, "utf-16"))
NOBODY = ("points possible", "student, test")  # the names in rows that learning platforms add, and that are no student's


@dataclass(frozen=True)
class Person:
    """A name as the list has it, and other values that distinguish the person, or empty texts."""

    written: str
    id: str = ""
    email: str = field(default="", compare=False)  # A lab has neither this field nor the next, so both aren't compared.
    group: str = field(default="", compare=False)


@dataclass
class People:
    """The people of a list, in its order. A table also has its heads, its rows and its delimiter. A row without a
    person has None."""

    rows: list[tuple[list[str], Person | None]]
    heads: list[str] = field(default_factory=list)
    delimiter: str = ","

    @property
    def people(self) -> list[Person]:
        """Returns all persons of the list."""
        return [person for _, person in self.rows if person is not None]


def add_words(words: argparse.ArgumentParser) -> None:
    """Adds the options that name a table's columns to a parser of command lines."""
    words.add_argument("--column", metavar="COL", help="the column of the table with the names")
    words.add_argument("--first-name", metavar="COL", help="the column of first names, if they are in a column of their own")
    words.add_argument("--last-name", metavar="COL", help="the column of last names")
    words.add_argument("--id", metavar="COL", help="the column with an identifier, for students with the same name")


def decoded(content: bytes) -> str:
    """Returns the text in a file's bytes. The encoding is UTF-8 or UTF-16, with or without a byte order mark, or else
    Latin-1 as Windows uses it. Without a mark, many zero bytes show that it is UTF-16. Raises `UnicodeDecodeError` if
    the bytes can't be read in the encoding that the mark or the zero bytes show."""
    for mark, encoding in MARKS:
        if content.startswith(mark):
            return content.decode(encoding)
    if content[1::2].count(0) > len(content) // 4:
        return content.decode("utf-16-le")
    if content[::2].count(0) > len(content) // 4:
        return content.decode("utf-16-be")
    try:
        return content.decode("utf-8")
    except UnicodeDecodeError:
        return content.decode("cp1252", errors="replace")


def read(path: Path, words: argparse.Namespace) -> People:
    """Returns the people in a file. `words` are the arguments of the command line, whose options may name the file's
    columns. The file is a table if an option names a column, if it is a .csv or .tsv file, or if its first line has a
    tab or a semicolon. Otherwise it has one name per line. Raises `Fault` if the file can't be read or has no names."""
    try:
        content = path.read_bytes()
        if path.suffix.lower() in SHEETS or content.startswith(b"PK\x03\x04"):
            raise Fault(f"{path}: this file is in the format of a spreadsheet program. Open it in this program, save it as CSV (UTF-8), "
                        "and name the new file instead")
        text = decoded(content)
    except OSError as error:
        raise Fault(f"{path}: {error.strerror}", 4) from None
    except UnicodeDecodeError as error:
        raise Fault(f"{path}: this file isn't a text in UTF-8 or UTF-16 ({error.reason}). Save it as UTF-8") from None
    first = text.partition("\n")[0]
    email, group = getattr(words, "email", None), getattr(words, "groups_by", None)
    named = any((words.column, words.first_name, words.last_name, words.id, email, group))
    if named or path.suffix.lower() in (".csv", ".tsv") or "\t" in first or ";" in first:
        found = table(path, text, words)
    else:
        found = People([([], Person(line.strip())) for line in text.splitlines() if line.strip()])
    if not found.people:
        raise Fault(f"{path}: there are no names in this file. Write one name on each line")
    return found


def table(path: Path, text: str, words: argparse.Namespace) -> People:
    """Returns the people of the table in a text, which is that of the file at `path`. `words` are the arguments of the
    command line. A row without a name has no person, nor has one that a learning platform adds. Raises `Fault` if the
    text isn't CSV, has no column with names, or lacks a column that the options name."""
    delimiter = max(",;\t", key=text.partition("\n")[0].count)
    reader = csv.reader(io.StringIO(text, newline=""), delimiter=delimiter)
    try:
        lines = [row for row in reader if any(map(str.strip, row))]
    except csv.Error as error:
        raise Fault(f"{path}: line {reader.line_num} isn't CSV: {error}") from None
    heads = [head.strip() for head in lines[0]] if lines else []
    first, last = column(path, heads, words.first_name, FIRST), column(path, heads, words.last_name, LAST)
    whole = column(path, heads, words.column, () if words.first_name or words.last_name else NAMES)
    ids = column(path, heads, words.id, IDS)
    emails = column(path, heads, getattr(words, "email", None), EMAILS)
    groups = column(path, heads, getattr(words, "groups_by", None), ())

    def cell(row: list[str], index: int | None) -> str:
        """Returns the cell of a row at an index, without surrounding spaces. Returns an empty text if the index is
        None."""
        return row[index].strip() if index is not None else ""

    parts = [whole] if whole is not None else [index for index in (first, last) if index is not None]
    if not parts:
        raise Fault(f"{path}: {columns_told(heads)}, and none of them is called name. Say which column has the names, "
                    "by --column COL, or which two have them, by --first-name COL and --last-name COL. If the first row "
                    "has no names of columns, write such a row above it")
    rows: list[tuple[list[str], Person | None]] = []
    for row in lines[1:]:
        row += [""] * (len(heads) - len(row))
        written = " ".join(row[index].strip() for index in parts).strip()
        nobody = not written or written.lower() in NOBODY
        rows.append((row, None if nobody else Person(written, cell(row, ids), cell(row, emails), cell(row, groups))))
    return People(rows, heads, delimiter)


def columns_told(heads: list[str]) -> str:
    """Returns a text that lists the columns of a table with these heads."""
    return f"the columns of this table are: {', '.join(heads)}" if any(heads) else "the columns of this table have no heads"


def column(path: Path, heads: list[str], asked: str | None, known: Iterable[str]) -> int | None:
    """Returns the index of the column whose head is `asked`, in capitals or not. If `asked` is None, returns that of
    the first of the `known` heads that the table has, or None if it has none. Raises `Fault` if `asked` names a missing
    column. `path` is the table's file, for the message."""
    lower = [head.lower() for head in heads]
    if asked is not None and asked.lower() not in lower:
        raise Fault(f"{path}: {columns_told(heads)}, and none of them is called {asked}. Name one of these columns in the command")
    return next((lower.index(word) for word in ([asked.lower()] if asked is not None else known) if word in lower), None)
