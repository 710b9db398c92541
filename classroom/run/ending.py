"""The files that a run leaves in its folder: a journal of complete lines, its audit, its marks and its pages. The
callback of a function prints a line."""
from __future__ import annotations

import os
from collections.abc import Callable
from pathlib import Path
from typing import IO

from classroom.core import lab as labs
from classroom.core.program import Fault, call
from classroom.marks import mark, own_pages
from classroom.pages import kept_layout, play


def put_back(journal: IO[bytes], path: Path, tell: Callable[[str], None]) -> None:
    """Writes the content of an open journal to its path again if the file there is gone. If there is another file,
    writes the content to a file beside it whose name ends in `.saved`. Does nothing if the file at the path is the open
    one. Calls `tell` with a line that says where the content is saved, or why it can't be saved there."""
    try:
        if os.path.samestat(os.fstat(journal.fileno()), path.stat()):
            return
        what = "another file is in the journal's place"
        then = f". Rename this file to {path} before you continue the run"
        path = path.with_name(f"{path.name}.saved")
    except FileNotFoundError:
        what, then = "the journal's file was missing", ""
    journal.seek(0)
    try:
        path.touch(0o600)
        path.write_bytes(journal.read())
        tell(f"{what}, so the journal's old lines are saved in {path}{then}")
    except OSError as error:
        tell(f"{what}, and the journal's old lines can't be saved in {path}: {error.strerror}")


def cut_torn_end(journal: Path) -> None:
    """Moves the incomplete last line of a journal, if it has one, into the file `journal.torn` beside the journal.
    Makes an empty journal if there is none. Raises `OSError` if a file can't be read or written."""
    content = journal.read_bytes() if journal.exists() else b""
    whole, found, torn = content.rpartition(b"\n")
    if torn or not journal.exists():
        if torn:
            journal.with_name("journal.torn").write_bytes(torn)
        with journal.open("r+b" if journal.exists() else "wb") as it:
            it.truncate(len(whole + found))


def finish(folder: Path, tell: Callable[[str], None], brief: bool = False) -> int:
    """Writes the audit, the page, the marks and the students' pages of a run into its folder, and prints the audit and
    the marks. If `brief` is set, prints the name of the file with the marks in place of the marks. Returns the exit
    status: 0, that of a `Fault`, or 4 if a file can't be read or written. Prints the reason for a status other than
    0."""
    try:
        cut_torn_end(folder / "journal")
        answer = call("audit", folder / "lab.toml", folder / "journal")
        tell((answer.output or answer.error).strip())
        (folder / "audit.txt").write_text(answer.output + answer.error + "\n" * bool(answer.error), encoding="utf-8")
        (folder / "run.html").write_text(play.page(folder / "lab.toml", folder / "journal"), encoding="utf-8")
        kept_layout.save(folder, labs.read(folder / "lab.toml"))
        run = mark.run_of_journal(folder / "lab.toml", folder / "journal")
        text = mark.text([run])
        tell(f"the marks are in {folder / 'marks.txt'}" if brief else text.rstrip())
        (folder / "marks.txt").write_text(text, encoding="utf-8")
        (folder / "marks.json").write_text(mark.as_json([run]), encoding="utf-8")
        own_pages.write_pages(folder, tell)
    except Fault as fault:
        tell(f"class: {fault}")
        return fault.status
    except OSError as error:
        tell(f"class: not all files of the run could be made: {error.filename or folder}: {error.strerror}. The journal is {folder / 'journal'}")
        return 4
    if not brief:
        tell(f"all files of the run are in {folder}")
    return 0
