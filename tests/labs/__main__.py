"""Labs and the program's verdicts on them: all rows of the tables in this folder, and labs at their limits.

    python3 -B -m tests.labs
"""
from pathlib import Path

from tests.common.preload import fail, in_room
from tests.common.second import agreed, run_program, said
from tests.labs import shown
from tests.labs.rows import Row, all_rows
from tests.labs.sizes import computed_rows


def check_row(row: Row, room: Path) -> None:
    """Checks that the program's `check` prints the line of a row about its lab, if the row has one. Unless the document
    has a newer form of TOML, also checks that the plain model prints the same."""
    lab = room / "checked.toml"
    lab.write_bytes(row.document)
    found = run_program("check", lab) if row.is_newer else agreed(row.name, "check", lab)
    if row.says and found != said(row.says):
        fail(f"{row.name}: {found}, not {row.says!r}")


def work(room: Path) -> str:
    """Checks the program's verdict on the lab of each row, and also the lab's contents if the row has them. Returns a
    line with the number of rows."""
    rows = all_rows() + computed_rows()
    for row in rows:
        check_row(row, room)
        if row.shows:
            shown.compare(row, room)
    return f"{len(rows)} lab files are read as their tables say"


if __name__ == "__main__":
    in_room(work)
