"""The page of each student's own run, which is written into the run's folder at its end. The page shows the student's
lines beside the player. A *record* has the lines that the connections of a run sent, with their replies."""
from __future__ import annotations

from collections.abc import Callable
from pathlib import Path

from classroom.core import folders
from classroom.core import lab as labs
from classroom.core.journal import events
from classroom.core.program import CLASS
from classroom.marks.history import Row, guard_denials, hider_of, rows_of, section, sessions_of, with_steps
from classroom.marks.reasons import reasons
from classroom.marks.vouched import vouched
from classroom.pages.frames import frames_of
from classroom.pages.page import Played

FOLDER = "students"  # the name of the folder with these pages in a run's folder
MOST = 64 << 20  # the most bytes of all pages together


def rows_by_student(folder: Path, lab: labs.Lab) -> tuple[list[str], dict[str, list[Row]]]:
    """Returns the lines about the records in a run's folder and their verdicts, and the rows of each student of the lab
    who sent something. Returns two empty values if a record is refused. Raises `Fault` if the journal or the beginning
    of a record can't be read."""
    with vouched(folder) as parts:
        if any(part.status for part in parts):
            return [], {}
        every, hider = sessions_of(parts), hider_of(parts, lab)
        found = {name: rows_of(every, name, hider) for name in lab.students}
        return [part.verdict_line() for part in parts], {name: rows for name, rows in found.items() if rows}


def write_pages(folder: Path, tell: Callable[[str], None]) -> None:
    """Writes a page for each student who sent something in the run in `folder`. The page shows each denial at its
    moment. If the pages would take too much room, writes none and calls `tell` with a line about how to make one.
    Raises `Fault` if the lab or the run can't be read, and `OSError` if a page can't be written."""
    lab_file, journal = folder / "lab.toml", folder / "journal"
    lab = labs.read(lab_file)
    verdicts, every = rows_by_student(folder, lab)
    if not every:
        return
    happened = events(journal.read_text(encoding="ascii"))
    played = Played(*frames_of(lab_file, journal))
    if len(played.data) * len(every) > MOST:
        return tell(f"the pages with the requests of each student aren't made, since together they would be too large. To make the page of the student "
                    f"NAME, type: {CLASS} history {folder} NAME -o NAME.html")
    why = reasons(lab, happened, [each for rows in every.values() for each in guard_denials(rows)])
    (folder / FOLDER).mkdir(0o700, exist_ok=True)
    for name, lines in every.items():
        more = section(f"What {name} sent", verdicts, with_steps(lab, happened, name, lines), why)
        page = played.page(f"{name}: {folders.title(lab_file, journal)}", more)
        (folder / FOLDER / f"{name}.html").write_text(page, encoding="utf-8")
