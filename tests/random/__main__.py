"""Runs random scripts for random labs by the program and by the plain model, and compares each byte.

    python3 -B -m tests.random [SEED|ends WORLDS]

The replies, the journal, and the audits of that journal and of a journal with one byte changed are those of the model.
So are the replies to a thousand events in large meshes, and the tables of `mml_tests_model`. A daemon chooses the nodes
that move in each step. Runs under four daemons end in a maximal matching, within the bounds on moves and rounds.

With a number, only the run of that seed is played, and its files are left in the working folder. With `ends`, only the
runs under four daemons are played, in as many worlds as WORLDS says.
"""
import re
import sys
from collections import Counter
from pathlib import Path
from random import Random

from model import read_lab
from model.policy import DENIALS
from tests.common.preload import TOP, fail, in_room
from tests.random import ends, tables
from tests.random.files import Files
from tests.random.labs import drawn_lab
from tests.random.meshes import mesh, mesh_script
from tests.random.scripts import drawn_script

USAGE = "usage: python3 -B -m tests.random [SEED|ends WORLDS]"
SEEDS = range(1, 501)  # of the random labs with a random script
LINES = 80  # of each of these scripts
HURTS = 3  # the number of changed journals of a run that are audited
WORLDS = range(1, 301)  # the seeds of the runs under four daemons
MESHES = (64, 256)  # the numbers of nodes of the large meshes
EVENTS = 1000  # of a run in a mesh
REPLACEMENTS = b" 03-eA\n\xff"
GRANTS = ("move", "close", "fault", "link", "cut", "release")
WORDS = [*DENIALS, *GRANTS, "hello", "bye", "see", "look", "report", "malformed", "full"]
# The least number of reports with pairs, and of those with open links.
REPORTS = 300
# The word of a reply, and the lists of a report that aren't empty.
TOLD = re.compile(rb'"(?:ok|deny|refuse)":"([a-z-]+)"')
LISTED = re.compile(rb'"(open|pairs)":\[\[')


def hurt(rng: Random, journal: bytes) -> bytes:
    """Returns a journal with one byte changed, left out or doubled."""
    at = rng.randrange(len(journal))
    digits = b"0123456789"
    byte = bytes([rng.choice(digits if journal[at] in digits else b" \n-0aestz\r\xff")])
    return journal[:at] + rng.choice([byte, byte, byte, b"", journal[at : at + 1] * 2]) + journal[at + 1 :]


def audit_hurt(rng: Random, files: Files) -> None:
    """Audits the journal of a run as it is, and with one byte changed, by the program and by the model. Fails if they
    differ."""
    journal = files.journal.read_bytes()
    for text in [journal] + [hurt(rng, journal) for _ in range(HURTS if journal else 0)]:
        files.audited(text)


def compare(room: Path, seed: int) -> Counter[bytes]:
    """Plays and audits the run of a seed by the program and by the model. Fails if they differ. Returns how often each
    word occurs in the replies, and how many reports have pairs or open links."""
    rng = Random(seed)
    document = drawn_lab(rng)
    script = drawn_script(rng, read_lab(document.encode()), LINES)
    files = Files(f"seed {seed}", room, document, script)
    found = files.played()
    audit_hurt(rng, files)
    return Counter(TOLD.findall(found.out) + LISTED.findall(found.out))


def compare_scripts(room: Path) -> None:
    """Compares all random scripts. Checks that each word of WORDS occurs in a reply, and that enough reports have
    pairs, and open links."""
    told: Counter[bytes] = Counter()
    for seed in SEEDS:
        told += compare(room, seed)
    missing = [word for word in WORDS if not told[word.encode()]]
    if missing:
        fail(f"no drawn run is answered {missing}")
    if min(told[b"pairs"], told[b"open"]) < REPORTS:
        fail(f"only {told[b'pairs']} reports have pairs, and {told[b'open']} open links")


def runs_to_an_end(room: Path, worlds: range) -> str:
    """Runs random worlds under each daemon to a stable end. In nine of ten runs there has to be a step, and one in
    twenty has to have a network with more than n²/4 links. Returns a line about them."""
    moving, dense = 0, 0
    for seed in worlds:
        for daemon in ends.DAEMONS:
            rng = Random(seed)
            document = ends.drawn_lab(rng, 1 + seed % 40)
            course = ends.course(rng, document, daemon)
            what = f"world {seed} under {daemon.__name__}"
            found = Files(what, room, document, course.script.encode()).played().out.decode()
            fault = course.fault(found)
            if fault:
                fail(f"{what}: {fault}")
            moving += '"moved":' in found
            dense += course.is_dense()
    count = len(worlds) * len(ends.DAEMONS)
    if moving < 0.9 * count or dense < 0.05 * count:
        fail(f"only {moving} of {count} runs to an end had a move, and {dense} many links")
    return f"{count} drawn runs to an end, {dense} of them on many links"


def check_meshes(room: Path) -> None:
    """Checks a thousand events of all kinds in a mesh: the reply to each, a report and looks after it, and the
    audit."""
    for count in MESHES:
        document, rng = mesh(count), Random(count)
        files = Files(f"a mesh of {count} nodes", room, document, mesh_script(rng, read_lab(document.encode()), EVENTS))
        told = Counter(TOLD.findall(files.played().out))
        if sum(told[word.encode()] for word in GRANTS) != EVENTS or not all(told[word.encode()] for word in GRANTS):
            fail(f"{files.what}: not {EVENTS} events of all kinds")
        if not files.audited(files.journal.read_bytes()).out.startswith(b"ok: %d events, " % EVENTS):
            fail(f"{files.what}: its journal doesn't pass")
        audit_hurt(rng, files)


def audit_replaced(room: Path) -> int:
    """Audits the journal in docs/JOURNAL.md with each byte replaced by others. Returns the number of audits."""
    files = Files("docs/JOURNAL.md", room, (TOP / "examples/built-in.toml").read_text(encoding="ascii"), b"")
    journal = (TOP / "examples/whole-run.journal").read_bytes()
    for at in range(len(journal)):
        for byte in REPLACEMENTS:
            files.audited(journal[:at] + bytes([byte]) + journal[at + 1 :])
    return len(journal) * len(REPLACEMENTS)


def work(room: Path) -> str:
    """Compares tables, scripts, meshes, audits and whole runs with the model. Returns a line with their numbers."""
    tables.compare()
    compare_scripts(room)
    check_meshes(room)
    audits = audit_replaced(room)
    return f"{len(SEEDS)} drawn scripts, {audits} audits and {runs_to_an_end(room, WORLDS)}, as the model has them"


def main(words: list[str]) -> None:
    """Runs what the arguments `words` ask for. Exits with status 1, and prints how to write them, if they are wrong."""
    match words:
        case []:
            in_room(work)
        case ["ends", worlds] if worlds.isdecimal() and int(worlds) > 0:
            in_room(lambda room: runs_to_an_end(room, range(1, int(worlds) + 1)))
        case [seed] if seed.isdecimal():
            compare(Path.cwd(), int(seed))
        case _:
            sys.exit(USAGE)


if __name__ == "__main__":
    main(sys.argv[1:])
