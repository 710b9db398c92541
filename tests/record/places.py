"""Tests of the folders in which a host (the server of a class) can begin a record. All other folders and files must
stay as they are."""
import os
from pathlib import Path

from tests.common.hosting import Host, lab_of, let_in
from tests.common.lines import hello
from tests.common.preload import Ended, fail

SEATS = 4
REFUSED = Ended(4, b"", b"record fault\n")
NO_JOURNAL = Ended(4, b"", b"journal fault\n")
Kept = dict[str, tuple[int, bytes]]


def listed(room: Path) -> Kept:
    """Returns what is in a folder, at any depth. For each path this is its inode, and the content of the file, the
    target of the link, or `folder` for anything else."""
    found = [(path, path.lstat()) for path in sorted(room.rglob("*"))]
    return {str(path.relative_to(room)): (it.st_ino, os.readlink(path).encode() if path.is_symlink() else
                                          path.read_bytes() if path.is_file() else b"folder") for path, it in found}


def refuses(room: Path, lab: Path, record: object, ended: Ended = REFUSED, journal: object = "", start: str = "") -> None:
    """Fails unless a host that should keep its record at `record` ends with the result `ended`, and nothing in the
    folder `room` is changed. The host runs in `room`, after the shell command `start`. Its journal is `journal`, or
    `run.journal` in `room` if that is empty."""
    before = listed(room)
    call = ["bash", "-c", f'cd "$0" && {start or "true"} && exec "$@"', str(room)]
    with Host(lab, 0, 0, journal or room / "run.journal", record, before=call) as host:
        found = host.end() if not host.listens else None
    if found != ended:
        fail(f"record: with {record} the host ends with {found}, not {ended}")
    if listed(room) != before:
        fail(f"record: with {record} another folder is left: {sorted(listed(room))}, not {sorted(before)}")


def takes(room: Path, lab: Path, record: Path) -> None:
    """Fails unless a host keeps its record in the folder `record`. The folder must then have exactly the files of a
    record, and be open to its owner alone. Removes the journal and its copy of the lab afterwards, for the next
    host."""
    with Host(lab, 0, 0, room / "run.journal", record) as host:
        if not host.listens:
            fail(f"record: with {record} the host ends with {host.end()}")
        ended = host.dismiss(let_in(host.desk, hello("tess"))[0])
    names = {"begun", "lab", *(f"{seat}.record" for seat in range(1, SEATS + 1))}
    if ended.status != 0 or {path.name for path in record.iterdir()} != names or record.stat().st_mode & 0o777 != 0o700:
        fail(f"record: with {record} the host ends with {ended}, and keeps {sorted(record.iterdir())}")
    (room / "run.journal").unlink()
    (room / "run.journal.lab").unlink()


def make_folder(folder: Path, *names: str) -> Path:
    """Makes a folder with files of these names, each of which contains its name. A name can have a folder before it.
    Returns the path of the new folder."""
    folder.mkdir(parents=True)
    for name in names:
        (folder / name).parent.mkdir(exist_ok=True)
        (folder / name).write_text(name, encoding="ascii")
    return folder


def other_folders_stay(room: Path) -> None:
    """Checks that a host doesn't keep its record in a folder with other files, under any of its names. The host must
    also refuse anything that isn't a folder, and change nothing."""
    lab, here = lab_of(room, SEATS), room / "others"
    make_folder(here / "Documents", "thesis", "record/1.record", "lab")
    (here / "link").symlink_to("Documents")
    (here / "chain").symlink_to(here / "link")
    (here / "nowhere").symlink_to("none")
    (here / "file").write_text("a file", encoding="ascii")
    os.mkfifo(here / "pipe")
    make_folder(here / "strange").joinpath("begun").mkdir()
    for record in (".", "..", "Documents", "Documents/", "./Documents/.", here / "Documents", "link", "chain", "nowhere", "file",
                   "file/record", "pipe", "strange", "none/record", "/"):
        refuses(here, lab, record)


def old_records_give_way(room: Path) -> None:
    """Checks that a host renames an older record before it begins the next one, whichever name leads there. It must do
    so even if the file `begun` is missing. An empty folder must be used, and a missing one must be made."""
    lab, here = lab_of(room, SEATS), make_folder(room / "places")
    record, link = here / "record", here / "link"
    link.symlink_to("record")
    takes(here, lab, record)
    (here / "empty").mkdir(0o755)
    takes(here, lab, here / "empty")
    for number, name in enumerate((record, link, link), 1):
        before = {path.name: path.stat().st_ino for path in record.iterdir()}
        takes(here, lab, name)
        old = {path.name: path.stat().st_ino for path in (here / f"record.~{number}~").iterdir()}
        if old != before or not link.is_symlink():
            fail(f"record: begun at {name} it leaves {sorted(path.name for path in here.iterdir())}")
    (record / "begun").unlink()
    takes(here, lab, record)
    if not (here / "record.~4~" / "1.record").is_file():
        fail("record: seats' files without their beginning don't give way")


def failures_rename_nothing(room: Path) -> None:
    """Checks that an older record keeps its name if the files of a record or of a journal can't be made. An empty
    folder must stay empty."""
    lab, here = lab_of(room, SEATS), make_folder(room / "failing")
    takes(here, lab, here / "record")
    (here / "empty").mkdir()
    inodes = listed(here)
    # The host copies the lab to `run.lab` beside the journal `run`. If that is the lab itself, no journal can be made.
    own = here / "run.lab"
    own.write_bytes(lab.read_bytes())
    for record in ("record", "none"):
        refuses(here, lab, record, start='trap "" XFSZ && ulimit -f 0')
        refuses(here, own, record, NO_JOURNAL, here / "run")
    before = sorted(listed(here))
    for start, told, at in (('trap "" XFSZ && ulimit -f 0', REFUSED, lab), ("true", NO_JOURNAL, own)):
        with Host(at, 0, 0, here / "run", here / "empty", before=["bash", "-c", f'{start} && exec "$@"', "bash"]) as host:
            if host.listens or host.end() != told or sorted(listed(here)) != before:
                fail(f"record: an empty folder isn't left where {told} is reported")
    if {name: it for name, it in listed(here).items() if name in inodes and name != "empty"} != {
            name: it for name, it in inodes.items() if name != "empty"}:
        fail("record: if a host fails, an older record is changed")


TESTS = (other_folders_stay, old_records_give_way, failures_rename_nothing)
