"""Rows of the tables of labs: each is a document with the expected verdict of the program.

A table is a TOML file. Its rows are the tables of the array `labs`, each with the document in one of two ways:

- `text`, or `bytes`, of which each letter is a byte. It follows `before`, and `after` follows it. These two are at the
  head of the table or in the row;
- `old` and `new`: the lab that is built into the program, or the table's own `base`, with `new` instead of `old`, which
  must be there exactly once. With `goes_on = true`, `old` is replaced in the document of the row before.

And with one of these values:

- `says`: the line of `check`: an error, which begins with `lab: `, or the lab's size, which begins with `ok: `;
- `shows`: all that the lab has, in the form of `tests.labs.shown`. Its students are ana, ben and cyd, or the first of
  these.

With `is_newer = true` the document has a form that TOML 1.1 added, which the model's reader may not know.
"""
import tomllib
from dataclasses import dataclass
from pathlib import Path
from typing import Any

from tests.common.preload import TOP, fail

HERE = Path(__file__).resolve().parent
PEOPLE = (("ana", "a-key"), ("ben", "b-key"), ("cyd", "c-key"))
TEACHER = ("tess", "chalk")


@dataclass(frozen=True)
class Row:
    """A document with the expected line about it, or its expected content, and the names and keys of its teacher
    and students."""

    name: str
    document: bytes
    says: str = ""
    shows: str = ""
    teacher: tuple[str, str] = TEACHER
    students: tuple[tuple[str, str], ...] = PEOPLE
    is_newer: bool = False


def built_in() -> str:
    """Returns the text of the built-in lab, without the comment at its head."""
    return (TOP / "examples/built-in.toml").read_text(encoding="utf-8").partition("\n\n")[2]


def changed(name: str, base: str, row: dict[str, Any]) -> str:
    """Returns the document `base` with the row's text `new` instead of `old`. Fails, with the row's name `name`, unless
    `old` occurs exactly once."""
    if base.count(row["old"]) != 1:
        fail(f"{name}: {row['old']!r} doesn't stand once in its document")
    return base.replace(row["old"], row["new"])


def document_of(name: str, table: dict[str, Any], row: dict[str, Any], last: str) -> bytes:
    """Returns the bytes of a row's document. `name` is that of the row, `table` has the defaults of all its rows, and
    `last` is the document of the row before."""
    if "old" in row:
        base = last if row.get("goes_on") else table.get("base", built_in())
        return changed(name, base, row).encode()
    before, after = (row.get(key, table.get(key, "")) for key in ("before", "after"))
    middle = row["bytes"].encode("latin-1") if "bytes" in row else row["text"].encode()
    content: bytes = before.encode("latin-1") + middle + after.encode("latin-1")
    return content


def rows_of(path: Path) -> list[Row]:
    """Returns the rows of the table in a file. Fails unless each row has exactly one of `says` and `shows`."""
    table = tomllib.loads(path.read_text(encoding="utf-8"))
    rows: list[Row] = []
    last = b""
    for number, row in enumerate(table["labs"], 1):
        name = f"{path.name}, row {number}"
        last = document_of(name, table, row, last.decode("utf-8", "replace"))
        if ("says" in row) == ("shows" in row):
            fail(f"{name}: it wants one of `says` and `shows`")
        rows.append(Row(name, last, row.get("says", ""), row.get("shows", ""), is_newer=row.get("is_newer", False)))
    return rows


def all_rows() -> list[Row]:
    """Returns the rows of all tables of this folder."""
    return [row for path in sorted(HERE.glob("*.toml")) for row in rows_of(path)]
