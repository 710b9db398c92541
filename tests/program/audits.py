"""Audits of correct journals, and of journals with each kind of error.

    python3 -B -m tests.program.audits

Some rows are written by hand. Then each prefix of a journal is audited, and the journal with each byte replaced by
others. For each audit the plain model prints the same.
"""
from pathlib import Path

from tests.common.preload import TOP, Ended, built_in, fail, in_room
from tests.common.second import agreed, said

JOURNAL = (TOP / "examples/whole-run.journal").read_bytes()
OTHERS = b" \n0123a-"  # each byte of the journal is replaced by each of these
ANA, BEN, CYD = "1 0 grant ana 1 seduction\n", "2 0 grant ben 2 seduction\n", "1 0 grant cyd 3 marriage 2\n"

# Journals of the built-in lab, each with the audit's verdict: its first bad line, or that it passes.
ROWS = [
    ("", "ok: 0 events, configuration 0, not stable"),
    (JOURNAL.decode(), "ok: 10 events, configuration 4, stable"),
    (ANA, "ok: 1 events, configuration 0, not stable"),
    (ANA[:-1], "audit: line 1: torn"),
    ("no event", "audit: line 1: torn"),
    ("\n", "audit: line 1: not an event"),
    ("1 0 closed\n", "audit: line 1: not an event"),
    ("5 5 closed\n", "audit: line 1: not an event"),
    (ANA + "\n", "audit: line 2: not an event"),
    ("0 0 grant ana 1 seduction\n", "audit: line 1: wrong place or configuration"),
    ("2 0 grant ana 1 seduction\n", "audit: line 1: wrong place or configuration"),
    ("1 1 grant ana 1 seduction\n", "audit: line 1: wrong place or configuration"),
    ("2 0 close\n", "audit: line 1: wrong place or configuration"),
    ("1 0 grant ben 1 seduction\n", "audit: line 1: illegal, not-owner"),
    (CYD, "audit: line 1: illegal, guard"),
    ("1 0 close\n", "audit: line 1: illegal, empty"),
    ("1 0 release 1\n", "audit: line 1: illegal, not-chosen"),
    ("1 0 fault 1 3 true\n", "audit: line 1: illegal, bad-register"),
    ("1 0 link 1 1\n", "audit: line 1: illegal, loop"),
    ("1 0 link 2 1\n", "audit: line 1: illegal, linked"),
    ("1 0 cut 3 1\n", "audit: line 1: illegal, not-linked"),
    ("1 0 fault 1 2 true\n2 1 link 3 1\n3 2 cut 1 2\n", "ok: 3 events, configuration 3, not stable"),
    (ANA + "2 0 grant ana 1 seduction\n", "audit: line 2: illegal, chosen"),
    (ANA + ANA, "audit: line 2: wrong place or configuration"),
    (ANA + "2 0 grant zoe 1 seduction\n", "audit: line 2: not an event"),
    (ANA + "2 0 close\n3 0 grant ben 2 seduction\n", "audit: line 3: wrong place or configuration"),
]

# The same if ana owns node 2 too, and only two events are allowed. A false line is reported before the limit.
SHARED = [
    ("1 0 grant ana 2 seduction\n", "ok: 1 events, configuration 0, not stable"),
    ("1 0 grant ben 2 seduction\n", "ok: 1 events, configuration 0, not stable"),
    ("1 0 grant cyd 2 seduction\n", "audit: line 1: illegal, not-owner"),
    (ANA + BEN, "ok: 2 events, configuration 0, not stable"),
    (ANA + BEN + "3 0 close\n", "audit: line 3: over the limit of events"),
    (ANA + "2 0 close\n3 1 close\n", "audit: line 3: illegal, empty"),
    (ANA + "2 0 close\n3 0 close\n", "audit: line 3: wrong place or configuration"),
]

# A lab with a cycle of six nodes, and the journal of a class that was resumed after its first line.
CYCLE = """events = 100
sessions = 3
links = [[1, 2], [2, 3], [3, 4], [4, 5], [5, 6], [6, 1]]
teacher = { name = "tess", key = "chalk" }
student = [{ name = "ana", key = "a-key" }]
""" + "".join(f'[[node]]\nid = {node}\nowner = "ana"\n' for node in range(1, 7))
RESUMED = [(ANA + "2 0 close\n", "ok: 2 events, configuration 1, not stable")]


class Auditor:
    """The audits of journals of a lab, with their number."""

    def __init__(self, room: Path, lab: Path) -> None:
        """`lab` is the file that journals are audited over, and `room` the folder for the journals."""
        self.lab, self.journal = lab, room / "audited.journal"
        self.calls = self.passed = 0

    def audited(self, journal: bytes) -> Ended:
        """Returns the result of the audit of a journal. Fails if the model's result differs."""
        self.journal.write_bytes(journal)
        found = agreed(f"an audit of {journal!r}", "audit", self.lab, self.journal)
        self.calls += 1
        self.passed += found.status == 0
        return found

    def wants(self, journal: bytes, line: str) -> None:
        """Checks the line of the audit of a journal: on standard output with status 0, or as an error with status 3."""
        found = self.audited(journal)
        if found != said(line):
            fail(f"an audit of {journal!r} says {found}, not {line!r}")

    def check_rows(self, rows: list[tuple[str, str]]) -> None:
        """Checks all rows, each a journal and the line of its audit."""
        for text, line in rows:
            self.wants(text.encode(), line)


def prefixes(auditor: Auditor) -> None:
    """Audits each prefix of the journal. A prefix of complete lines passes, and otherwise the error names the
    incomplete line. After the tenth line the run is stable."""
    for end in range(len(JOURNAL) + 1):
        front = JOURNAL[:end]
        *lines, torn = front.split(b"\n")
        closes = sum(line.endswith(b"close") for line in lines)
        stable = "stable" if len(lines) == 10 else "not stable"
        wanted = f"ok: {len(lines)} events, configuration {closes}, {stable}"
        if torn:
            wanted = f"audit: line {len(lines) + 1}: torn"
        auditor.wants(front, wanted)


def replaced(auditor: Auditor) -> None:
    """Audits the journal with each byte replaced by each one of OTHERS. It passes only if both bytes are the same, so
    as often as a byte of the journal is in OTHERS."""
    before = auditor.passed
    for at in range(len(JOURNAL)):
        for other in OTHERS:
            auditor.audited(JOURNAL[:at] + bytes([other]) + JOURNAL[at + 1 :])
    same = sum(byte in OTHERS for byte in JOURNAL)
    if auditor.passed - before != same:
        fail(f"{auditor.passed - before} journals with a byte replaced pass, not {same}")


def shared_lab(room: Path, lab: Path) -> Path:
    """Writes the built-in lab with a second owner of node 2 and a limit of two events, and returns its path."""
    text = lab.read_text(encoding="ascii")
    for old, new in (("events = 100", "events = 2"), ('owner = "ben"', 'owners = ["ana", "ben"]')):
        if text.count(old) != 1:
            fail(f"the built-in lab has no line {old}")
        text = text.replace(old, new)
    shared = room / "shared.toml"
    shared.write_text(text, encoding="ascii")
    return shared


def work(room: Path) -> str:
    """Runs all audits. Returns a line with their number."""
    lab, cycle = built_in(room), room / "cycle.toml"
    cycle.write_text(CYCLE, encoding="ascii")
    auditor, shared, resumed = Auditor(room, lab), Auditor(room, shared_lab(room, lab)), Auditor(room, cycle)
    auditor.check_rows(ROWS)
    shared.check_rows(SHARED)
    resumed.check_rows(RESUMED)
    prefixes(auditor)
    replaced(auditor)
    return f"{auditor.calls + shared.calls + resumed.calls} audits of right, torn and hurt journals say what is wanted"


if __name__ == "__main__":
    in_room(work)
