"""The contents of the tables of `mml_tests_model`, computed by the plain model.

    python3 -B -m tests.random.tables      prints them, to be checked before they are stored

The crate's tests compare random events, and a journal's lines with each byte replaced, with these tables. Here the
tables are compared with the model.
"""
from __future__ import annotations

import re
import sys

from model import Lab, read_lab
from model.events import apply
from model.journal import LINE, read_line
from model.policy import denial
from model.requests import GREATEST, Request
from model.world import Move, World
from tests.common.preload import TOP, fail

TESTS = TOP / "crates/mml_tests_model/src"
CYCLES = (64, 256)  # the numbers of nodes of the cycles
DRAWS = 5000  # requests that are drawn on each cycle
EVENTS = 1000  # the least number of them that has to be legal
ROW = 80  # characters of a table in a line of source
REPLACEMENTS = b" 03-eA\n\xff"
PEOPLE = """events = 100
sessions = 1
teacher = { name = "tess", key = "chalk" }
student = [{ name = "ana", key = "a-key" }, { name = "ben", key = "b-key" }]
"""


def cycle(count: int) -> str:
    """Returns the text of a lab with a cycle of `count` nodes, of which ana owns the first half and ben the second."""
    links = [[1, count], *([i, i + 1] for i in range(1, count))]
    owners = ("ana" if 2 * i <= count else "ben" for i in range(1, count + 1))
    return PEOPLE + f"links = {links}\n" + "".join(f'[[node]]\nid = {i}\nowner = "{name}"\n' for i, name in enumerate(owners, 1))


class Numbers:
    """The pseudo-random numbers of `mml_fakes`, from a seed."""

    def __init__(self, seed: int) -> None:
        """Begins with a seed."""
        self.state = seed

    def below(self, limit: int) -> int:
        """Returns the next number, which is at least 0 and below a limit."""
        self.state = (self.state * 6364136223846793005 + 1442695040888963407) % 2**64
        return (self.state >> 33) % limit


def drawn(numbers: Numbers, world: World, index: int) -> tuple[str, Request]:
    """Returns the next request in a world, and who sends it. `index` requests were drawn before it. Most requests aren't
    legal. The crate `mml_tests_model` draws the same requests from the same numbers, so this function and the crate's
    must agree."""
    count = len(world.links)
    at = (index // 8 + numbers.below(8)) % count
    i, j = at + 1, (at + count - 2 + numbers.below(6)) % count + 1
    word = numbers.below(32)
    if word < 22:
        rule = world.enabled(i) or "update"
        is_ana = (2 * i <= count) != (numbers.below(8) == 0)
        return "ana" if is_ana else "ben", Request("move", node=i, at=world.number, move=Move(rule, j if rule == "marriage" else None))
    if word < 26:
        return "tess", Request("close") if word < 24 else Request("release", node=i)
    if word < 28:
        p = None if numbers.below(4) == 0 else j
        return "tess", Request("fault", node=i, p=p, m=numbers.below(2) == 1)
    return "tess", Request("link" if word < 30 else "cut", a=i, b=j)


def refused_before(count: int) -> str:
    """Draws requests on a cycle of `count` nodes. Returns a letter for each legal one, which says how many illegal ones
    came between it and the legal one before: `a` for none, and `z` for 25 or more. Fails if too few are legal, or if a
    kind of event is missing."""
    lab = read_lab(cycle(count).encode())
    world, numbers = lab.opening(), Numbers(count)
    text, refused, words = "", 0, set[str]()
    for index in range(DRAWS):
        who, asked = drawn(numbers, world, index)
        if denial(lab, world, who, asked):
            refused += 1
            continue
        words.add(asked.move.rule if asked.do == "move" else asked.do)
        text += chr(ord("a") + min(refused, 25))
        refused = 0
        apply(world, asked)
    # The nine kinds are the four rules, close, release, fault, link and cut.
    if len(text) < EVENTS or len(words) != 9:
        fail(f"on a cycle of {count} nodes {len(text)} events of these kinds are drawn: {words}")
    return text


def is_shaped(line: bytes) -> bool:
    """Returns whether a line has the form of an event, whatever its names are."""
    found = LINE.fullmatch(line.decode("latin-1"))
    return found is not None and max(int(found["place"]), int(found["number"])) <= GREATEST


def event_of(lab: Lab, line: bytes) -> str:
    """Returns the event of a journal's line in Rust's debug form, after its place and configuration. The event has to
    be a grant or a close. Returns `?` if the line has an event that isn't one of this lab, and `.` if it has none."""
    read = read_line(line, lab)
    if read is None:
        return "?" if is_shaped(line) else "."
    place, before, who, asked = read
    event = "Close"
    if asked.do == "move":
        student = lab.students().index(who)
        rule = asked.move.rule.capitalize() + (f"({rank(asked.move.partner)})" if asked.move.partner else "")
        event = f"Grant {{ who: Student {{ index: {student} }}, node: {rank(asked.node)}, rule: {rule} }}"
    return f"{place} {before} {event}"


def rank(node: int) -> str:
    """Returns the index of a node of the built-in lab, as a `Rank` in Rust's debug form."""
    return f"Rank {{ index: {node - 1} }}"


def replaced() -> str:
    """Returns a text with each line of the journal and its event. After them come, for each byte of REPLACEMENTS, the
    signs of the lines in which this byte replaces one byte. The sign is `.` if such a line has no event, and `?` if it
    has one that isn't of this lab. The sign is `=` for the same event. For another event it is `!`, and the other
    events follow the signs."""
    lab = read_lab((TOP / "examples/built-in.toml").read_bytes())
    text = ""
    for line in (TOP / "examples/whole-run.journal").read_bytes().splitlines():
        own = event_of(lab, line)
        text += f"{line.decode()}\n{own}\n"
        for byte in REPLACEMENTS:
            read = [event_of(lab, line[:at] + bytes([byte]) + line[at + 1 :]) for at in range(len(line))]
            text += "".join("=" if it == own else it if it in ".?" else "!" for it in read) + "\n"
            text += "".join(f"{it}\n" for it in read if it not in (own, ".", "?"))
    return text


def rows(text: str) -> str:
    """Returns a text as lines of Rust source: string literals of ROW characters each, which `concat!` joins."""
    return "".join(f'    "{text[at : at + ROW]}",\n' for at in range(0, len(text), ROW))


def kept(file: str, pattern: str) -> str:
    """Returns the content of the stored table that a pattern with one group finds in a file. Fails if it finds none."""
    found = re.search(pattern, (TESTS / file).read_text(encoding="utf-8"), re.DOTALL)
    if found is None:
        fail(f"no table in {file}")
    return found[1]


def compare() -> None:
    """Fails if a stored table isn't the one that the model computes."""
    for count in CYCLES:
        pieces = re.findall(r'"(\w*)"', kept("drawn.rt", rf"const OF_{count}: &str = concat!\(([^)]*)\)"))
        if "".join(pieces) != refused_before(count):
            fail(f"the table of drawn events on a cycle of {count} nodes isn't the model's")
    if kept("journal/replaced.rt", r'const REPLACED: &str = "(.*?)";') != replaced():
        fail("the table of lines with a byte replaced isn't the model's")


if __name__ == "__main__":
    for nodes in CYCLES:
        sys.stdout.write(f"const OF_{nodes}: &str = concat!(\n{rows(refused_before(nodes))});\n")
    sys.stdout.write(f'const REPLACED: &str = "{replaced()}";\n')
