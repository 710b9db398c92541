"""Labs and journals for tests of pages."""
from __future__ import annotations

import json
import os
import subprocess
from pathlib import Path

TOP = Path(__file__).resolve().parents[2]
PROGRAM = Path(os.environ.get("MML_PROGRAM") or TOP / "crates/mml_host/out/mml_host")
EXAMPLES = TOP / "examples"
BUILT_IN = EXAMPLES / "built-in.toml"
STUDENTS = (("ana", "a-key"), ("ben", "b-key"))


def journal_of(lab: Path, script: Path, journal: Path) -> Path:
    """Runs a script, a file of requests, with this lab. Writes the run's journal to the path `journal`, and returns
    this path. Raises an error if the program fails."""
    subprocess.run([PROGRAM, "script", lab, script, journal], stdout=subprocess.DEVNULL, check=True)
    return journal


def examples(room: Path) -> list[tuple[Path, Path]]:
    """Runs the script of each lab of examples/ that has a script `..-run.script`, and writes the journal into the
    folder `room`. Returns these labs with their journals, and the built-in lab with its own."""
    runs = [(lab, lab.with_name(f"{lab.stem}-run.script")) for lab in sorted(EXAMPLES.glob("*.toml"))]
    made = [(lab, journal_of(lab, script, room / f"{lab.stem}.journal")) for lab, script in runs if script.exists()]
    return [*made, (BUILT_IN, EXAMPLES / "whole-run.journal")]


def lab_text(nodes: int, links: list[tuple[int, int]], events: int) -> str:
    """Returns the text of a lab with the nodes 1 to `nodes`, these links, and the limit `events`. The students ana and
    ben share the nodes with an even identifier, and ana owns the others."""
    rows = [f"events = {events}", "sessions = 2", f"links = {[list(link) for link in links]}"]
    rows += ["[teacher]", 'name = "tess"', 'key = "chalk"']
    for name, key in STUDENTS:
        rows += ["[[student]]", f'name = "{name}"', f'key = "{key}"']
    for node in range(1, nodes + 1):
        rows += ["[[node]]", f"id = {node}", 'owner = "ana"' if node % 2 else 'owners = ["ana", "ben"]']
    return "\n".join(rows) + "\n"


def many_owners(room: Path, nodes: int) -> Path:
    """Writes a lab with a cycle of `nodes` nodes into the folder `room`, and returns its path. The owners are zoe and
    twelve students whose names begin with the same letter. Each third node has two owners."""
    names = [f"student-{number}" for number in range(1, 13)] + ["zoe"]
    lab = room / f"owners-{nodes}.toml"
    rows = ["events = 9", "sessions = 2", "links = [" + ", ".join(f"[{a}, {a % nodes + 1}]" for a in range(1, nodes + 1)) + "]"]
    rows += ['teacher = {name = "tess", key = "chalk"}', *(f'[[student]]\nname = "{name}"\nkey = "key"' for name in names)]
    for node in range(1, nodes + 1):
        owners = [names[node % 13], names[(node + 1) % 13]][: 2 if node % 3 == 0 else 1]
        rows += [f"[[node]]\nid = {node}\nowners = {json.dumps(owners)}"]
    lab.write_text("\n".join(rows) + "\n")
    return lab


def edited_run(room: Path) -> tuple[Path, Path]:
    """Writes a run with every kind of event into the folder `room`: moves, a release, closes, faults, a link and a cut.
    Returns the lab and the journal."""
    lab, script = room / "edited.toml", room / "edited.script"
    lab.write_text(lab_text(5, [(1, 2), (2, 3), (3, 4), (4, 5)], 100))
    ana, tess = '1 {"do":"hello","name":"ana","key":"a-key"}', '2 {"do":"hello","name":"tess","key":"chalk"}'
    move = '1 {{"do":"move","node":{},"rule":"{}","at":{}}}'
    lines = [
        ana, tess, move.format(1, "seduction", 0), '2 {"do":"release","node":1}', move.format(1, "seduction", 0),
        move.format(3, "seduction", 0), '2 {"do":"close"}', '2 {"do":"link","a":5,"b":1}',
        '2 {"do":"fault","node":4,"p":5,"m":true}', move.format(4, "update", 3), '2 {"do":"cut","a":4,"b":3}',
        move.format(4, "update", 4), '2 {"do":"close"}', '2 {"do":"fault","node":2,"p":1,"m":false}',
    ]
    script.write_text("\n".join(lines) + "\n")
    return lab, journal_of(lab, script, room / "edited.journal")


def largest_run(room: Path) -> tuple[Path, Path]:
    """Writes a run of the largest lab, a complete graph of 256 nodes, into the folder `room`. The run's 1,000 events
    are moves, releases of most of these moves, nineteen faults and a close. Returns the lab and the journal."""
    lab, script = room / "largest.toml", room / "largest.script"
    lab.write_text(lab_text(256, [(a, b) for a in range(1, 257) for b in range(a + 1, 257)], 1000))
    lines = ['1 {"do":"hello","name":"ana","key":"a-key"}', '2 {"do":"hello","name":"tess","key":"chalk"}']
    move = '1 {{"do":"move","node":{},"rule":"seduction","at":{}}}'
    for number in range(20):
        for node in range(1, 25):
            lines += [move.format(node, number), f'2 {{"do":"release","node":{node}}}']
        lines += [move.format(100 + number, number)]
        lines += ['2 {"do":"close"}' if number == 10 else f'2 {{"do":"fault","node":{200 + number},"p":null,"m":true}}']
    script.write_text("\n".join(lines) + "\n")
    return lab, journal_of(lab, script, room / "largest.journal")


def long_run(room: Path, events: int) -> tuple[Path, Path]:
    """Writes a run of `events` events on a path of 15 nodes into the folder `room`. The run repeats a fault, the move
    that the fault enables, and a close. Returns the lab and the journal."""
    lab, journal = room / "long.toml", room / "long.journal"
    lab.write_text(lab_text(15, [(a, a + 1) for a in range(1, 15)], events))
    rows = []
    for place in range(1, events + 1):
        turn, part = divmod(place - 1, 3)
        node = 1 + turn * 4 % 15  # In fifteen turns each node has one, since 4 and 15 have no common divisor.
        # The fault makes configuration 2 * turn + 1, in which the move is granted and the step is closed.
        rows.append(f"{place} {2 * turn + (part > 0)} " + (f"fault {node} - true", f"grant ana {node} update", "close")[part])
    journal.write_text("".join(f"{row}\n" for row in rows))
    return lab, journal
