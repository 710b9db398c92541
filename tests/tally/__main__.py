"""The output of `tally` for journals and records: by hand, and for random runs compared with the plain model.

    python3 -B -m tests.tally [JOURNALS]

The random journals are those of the model for random labs and scripts. JOURNALS is their number, by default 300. For
each of them the program prints the same as the model, and `./class mark` reads the same numbers. For as many random
runs, the tally includes their records. For as many runs that continue step by step, the rounds are also those that
`classroom` counts.
"""
from __future__ import annotations

import sys
from pathlib import Path
from random import Random

from classroom.core import tally as tallies
from model import Ended, play, read_lab
from tests.common.preload import TOP, fail, in_room
from tests.common.second import agreed, said
from tests.random.labs import drawn_lab
from tests.random.scripts import drawn_script
from tests.tally import recorded, stepwise

JOURNALS = 300
LINES = 80
LAB = """events = 100
sessions = 4
links = [[1, 2], [2, 3]]
teacher = { name = "tess", key = "chalk" }
student = [{ name = "ana", key = "a-key" }, { name = "ben", key = "b-key" }]
node = [{ id = 1, owner = "ana" }, { id = 2, owners = ["ana", "ben"] }, { id = 3, owner = "ben" }]
"""
# Parts of the lines that `tally` prints, which docs/JOURNAL.md explains: four counts of moves that are 0, all counts of
# a student without a move, and the bounds for two networks.
NOTHING = "0 0 0 0"
IDLE = f"{NOTHING} {NOTHING} 0 - - 0"
PATH = "bounds 13 5 26\n"  # 3 nodes with two links
LESS = "bounds 11 5 22\n"  # 3 nodes with one link
# A name, the written journal, and the lines that have to be printed.
CASES = (
    ("nothing", "", f"student ana {IDLE}\nstudent ben {IDLE}\nnode 2 ana {NOTHING} ben {NOTHING}\n{PATH}run 0 0 unstable 0 0 0 0 0 0 0\nrounds 0\n"),
    ("a move that is chosen still", "1 0 grant ben 2 seduction\n",
     f"student ana {IDLE}\nstudent ben 0 0 1 0 {NOTHING} 0 1 1 0\nnode 2 ana {NOTHING} ben 0 0 1 0\n{PATH}run 1 0 unstable 0 0 0 0 0 0 0\nrounds 0\n"),
    ("a release takes a move back", "1 0 grant ana 1 seduction\n2 0 release 1\n",
     f"student ana 0 0 1 0 {NOTHING} 0 1 1 0\nstudent ben {IDLE}\nnode 2 ana {NOTHING} ben {NOTHING}\n{PATH}run 2 0 unstable 0 0 0 0 0 0 0\nrounds 0\n"),
    ("a last close that applies none of a student's moves",
     "1 0 grant ben 2 seduction\n2 0 grant ana 1 seduction\n3 0 release 2\n4 0 close\n",
     f"student ana 0 0 1 0 0 0 1 0 1 2 2 0\nstudent ben 0 0 1 0 {NOTHING} 0 1 1 0\nnode 2 ana {NOTHING} ben 0 0 1 0\n"
     f"{PATH}run 4 1 unstable 1 0 0 0 1 1 1\nrounds 0\n"),
    ("a node of two owners, with a fault between its two grants",
     "1 0 grant ana 1 seduction\n2 0 close\n3 1 grant ben 2 marriage 1\n4 1 fault 3 - true\n5 2 grant ana 2 marriage 1\n6 2 close\n",
     f"student ana 0 1 1 0 0 1 1 0 2 1 5 1\nstudent ben 0 1 0 0 {NOTHING} 0 3 3 0\nnode 2 ana 0 1 0 0 ben 0 1 0 0\n"
     f"{PATH}run 6 3 unstable 2 1 0 0 2 1 1\nrounds 0\n"),
    ("a link drops a move", "1 0 grant ana 1 seduction\n2 0 link 1 3\n",
     f"student ana 0 0 1 0 {NOTHING} 0 1 1 0\nstudent ben {IDLE}\nnode 2 ana {NOTHING} ben {NOTHING}\n{PATH}run 2 1 unstable 0 0 1 0 0 0 0\nrounds 0\n"),
    ("a cut drops a move", "1 0 grant ana 1 seduction\n2 0 cut 2 3\n",
     f"student ana 0 0 1 0 {NOTHING} 0 1 1 0\nstudent ben {IDLE}\nnode 2 ana {NOTHING} ben {NOTHING}\n{LESS}run 2 1 unstable 0 0 0 1 0 0 0\nrounds 0\n"),
    ("two moves of one student in a close", "1 0 grant ana 1 seduction\n2 0 grant ana 2 seduction\n3 0 close\n",
     f"student ana 0 0 2 0 0 0 2 0 1 1 2 1\nstudent ben {IDLE}\nnode 2 ana 0 0 1 0 ben {NOTHING}\n{PATH}run 3 1 unstable 1 0 0 0 2 2 1\nrounds 1\n"),
)
# The tally of examples/whole-run.journal.
WHOLE = """student ana 0 0 1 1 0 0 1 1 2 1 9 0
student ben 1 0 1 0 1 0 1 0 2 2 6 0
student cyd 1 1 0 0 1 1 0 0 2 4 7 0
bounds 13 5 26
run 10 4 stable 4 0 0 0 6 6 4
rounds 4
"""
# Journals that don't pass the audit, with its error.
REFUSED = (
    ("1 0 grant ana 1 seduction", "audit: line 1: torn"),
    ("1 0 grant ben 1 seduction\n", "audit: line 1: illegal, not-owner"),
    ("1 0 grant ana 1 seduction\n3 0 close\n", "audit: line 2: wrong place or configuration"),
)


def by_hand(room: Path) -> int:
    """Checks the tallies of the journals that are written by hand, and of the one in `examples/`. Returns the number of
    journals."""
    lab, journal = room / "lab.toml", room / "journal"
    lab.write_text(LAB, encoding="ascii")
    wanted = [(text, Ended(0, tally.encode(), b"")) for _, text, tally in CASES] + [(text, said(line)) for text, line in REFUSED]
    for text, end in wanted:
        journal.write_text(text, encoding="ascii")
        found = agreed(repr(text), "tally", lab, journal)
        if found != end:
            fail(f"{text!r}: {found}, not {end}")
    whole = agreed("the whole run", "tally", TOP / "examples/built-in.toml", TOP / "examples/whole-run.journal")
    if whole != Ended(0, WHOLE.encode(), b""):
        fail("another tally of the whole run")
    return len(wanted) + 1


def check_drawn(room: Path, seed: int) -> bool:
    """Checks that the program and the model print the same tally of a random journal, and that `classroom` reads the
    same numbers from it. Returns whether the journal has an event."""
    rng = Random(seed)
    document = drawn_lab(rng)
    model = read_lab(document.encode())
    run, _ = play(model, drawn_script(rng, model, LINES))
    lab, journal = room / "lab.toml", room / "journal"
    lab.write_text(document, encoding="ascii")
    journal.write_bytes(run.written())
    found = agreed(f"seed {seed}", "tally", lab, journal)
    if found.status or tallies.read(found.out.decode()) != tallies.of(lab, journal):
        fail(f"seed {seed}: it doesn't pass, or ./class reads another tally")
    return bool(run.journal)


def work(room: Path) -> str:
    """Checks the tallies of runs that are written by hand, of random journals, of random runs with records, and of
    random runs that continue step by step. Fails if fewer than half of the random journals have an event. Also fails
    if, for a word of `recorded.COUNTED`, fewer than half of the runs with records have something to count under it.
    Returns a line with the numbers of these runs and of the rounds."""
    count = int(sys.argv[1]) if len(sys.argv) > 1 else JOURNALS
    hands = by_hand(room)
    some = sum(check_drawn(room, seed) for seed in range(1, count + 1))
    if 2 * some < count:
        fail(f"only {some} of {count} drawn journals have an event")
    hands += recorded.by_hand(room, LAB)
    counted = [recorded.check_drawn(room, seed) for seed in range(1, count + 1)]
    for word in recorded.COUNTED:
        runs = sum(word in words for words in counted)
        if 2 * runs < count:
            fail(f"only in {runs} of {count} drawn runs something is counted as {word}")
    rounds = stepwise.check_all(room, count)  # the rounds of all runs that continue step by step
    return f"{hands} runs by hand, {some} drawn ones, {count} with records and {count} of {rounds} rounds are printed as by the model"


if __name__ == "__main__":
    in_room(work)
