"""The largest lab: a complete graph of 256 nodes with the greatest identifiers, and 256 students with the longest
names.

The expected replies are computed here, from the form of a reply and the numbers of the request. Each student but
the last asks for a move, and one close applies them all.
"""
from dataclasses import dataclass, field
from pathlib import Path

from tests.common.limits import MOST
from tests.common.preload import Client, Ended, Server, fail, good, run

NODES = range(65280, 65536)
LAST = NODES[-1]
SESSIONS, EVENTS = MOST["sessions"], MOST["events"]
TESS, WELCOME = '{"do":"hello","key":"chalk","name":"tess"}', '{"ok":"hello","who":"tess"}'


def name(number: int) -> str:
    """Returns the name of the student with a number, of 32 bytes."""
    return f"s{number:031}"


def document() -> str:
    """Returns the text of the lab. Each node belongs to the student with its number and to the next one."""
    links = ",\n".join(f"[{a},{b}]" for a in NODES for b in NODES if b < a)
    people = "".join(f'[[student]]\nname = "{name(number)}"\nkey = "{number:064}"\n' for number in range(256))
    nodes = "".join(
        f'[[node]]\nid = {node}\nowners = ["{name(node % 256)}", "{name((node + 1) % 256)}"]\n' for node in NODES
    )
    limits = f"events = {EVENTS}\nsessions = {SESSIONS}\n"
    return f'{limits}links = [\n{links}]\nteacher = {{ name = "tess", key = "chalk" }}\n{people}{nodes}'


def report(has_suitors: bool) -> str:
    """Returns the text of the expected report before the moves, or after them if `has_suitors` is set. No node is in a
    pair, so each link is open. The report names a privileged node for each open link, its witness. The witness is the
    link's lower end before the moves, and the last node after them."""
    links = [(a, b) for a in NODES for b in NODES if a < b]
    if has_suitors:
        opened = ",".join(f'[{a},{b},{LAST},"marriage"]' for a, b in links)
        privileged = f'[{LAST},"marriage"]'
    else:
        opened = ",".join(f'[{a},{b},{a},"seduction"]' for a, b in links)
        privileged = ",".join(f'[{node},"seduction"]' for node in NODES[:-1])
    free = ",".join(map(str, NODES))
    lists = f'"free":[{free}],"ok":"report","open":[{opened}],"pairs":[],"privileged":[{privileged}]'
    return f'{{"at":{int(has_suitors)},{lists},"stable":false}}'


@dataclass
class Tale:
    """A script, its expected replies, and its expected journal, each as a list of lines."""

    script: list[str] = field(default_factory=list)
    replies: list[str] = field(default_factory=list)
    journal: list[str] = field(default_factory=list)

    def say(self, connection: int, line: str, reply: str) -> None:
        """Adds a line on a connection, and its expected reply."""
        self.script.append(f"{connection} {line}\n")
        self.replies.append(f"{connection} {reply}\n")

    def leave(self, connection: int) -> None:
        """Adds a bye on a connection."""
        self.say(connection, '{"do":"bye"}', '{"ok":"bye"}')

    def greet(self, connection: int, number: int) -> None:
        """Adds the hello of the student with a number."""
        hello = f'{{"do":"hello","key":"{number:064}","name":"{name(number)}"}}'
        self.say(connection, hello, f'{{"ok":"hello","who":"{name(number)}"}}')

    def seduce(self, connection: int, number: int) -> None:
        """Adds the Seduction of the student with a number, at the node with the same index in NODES. The students have
        to move in the order of their numbers, from 0, since the move's place is `number + 1`."""
        node, place = NODES[number], number + 1
        line = f'{{"at":0,"do":"move","node":{node},"rule":"seduction"}}'
        self.say(connection, line, f'{{"at":0,"node":{node},"ok":"move","place":{place},"rule":"seduction"}}')
        self.journal.append(f"{place} 0 grant {name(number)} {node} seduction\n")

    def see(self, connection: int, node: int, p: str) -> None:
        """Adds a request to see a node after the close. `p` is its expected pointer."""
        line = f'{{"do":"see","node":{node}}}'
        self.say(connection, line, f'{{"at":1,"m":false,"node":{node},"ok":"see","p":{p}}}')

    def close(self, connection: int) -> None:
        """Adds the close of all moves."""
        moved = ",".join(map(str, NODES[:-1]))
        self.say(connection, '{"do":"close"}', f'{{"at":1,"moved":[{moved}],"ok":"close","place":256}}')
        self.journal.append("256 0 close\n")


def whole_tale() -> Tale:
    """Returns the lines of the whole run. First come the teacher's report, and the moves of all students but the last,
    on all connections in turn. Then come the close, a second report, requests to see nodes, and a look at the last
    node."""
    tale = Tale()
    for has_moved in (False, True):
        tale.say(SESSIONS, TESS, WELCOME)
        if has_moved:
            tale.close(SESSIONS)
        tale.say(SESSIONS, '{"do":"report"}', report(has_moved))
        tale.leave(SESSIONS)
        for number in [] if has_moved else range(255):
            connection = number % SESSIONS + 1
            tale.greet(connection, number)
            tale.seduce(connection, number)
            tale.leave(connection)
    for connection in range(1, SESSIONS + 1):
        tale.greet(connection, connection - 1)
        tale.see(connection, NODES[connection - 1], str(LAST))
        tale.see(connection, LAST, "null")
    # The first student also owns the last node, at which all nodes point.
    near = ",".join(f'{{"m":false,"node":{node},"p":{LAST}}}' for node in NODES[:-1])
    shown = f'"chosen":null,"m":false,"near":[{near}],"node":{LAST},"ok":"look","p":null,"rule":"marriage"'
    tale.say(1, f'{{"do":"look","node":{LAST}}}', f'{{"at":1,{shown}}}')
    return tale


def check_script(room: Path, lab: Path) -> None:
    """Plays the whole run as a script, and audits its journal. Then checks that a line is bad if the number of its
    connection is greater than `SESSIONS`."""
    tale = whole_tale()
    script, journal = room / "greatest.script", room / "greatest.journal"
    script.write_text("".join(tale.script), encoding="ascii")
    if good(["script", str(lab), str(script), str(journal)]).decode() != "".join(tale.replies):
        fail("the largest lab: a reply isn't the expected one")
    if journal.read_text(encoding="ascii") != "".join(tale.journal):
        fail("the largest lab: the journal isn't the expected one")
    if good(["audit", str(lab), str(journal)]) != b"ok: 256 events, configuration 1, not stable\n":
        fail("the largest lab: the audit isn't the expected one")
    script.write_text(f'{SESSIONS + 1} {{"do":"bye"}}\n', encoding="ascii")
    if run(["script", str(lab), str(script)], b"", {}) != Ended(2, b"", b"script: line 1: bad line\n"):
        fail("the largest lab has a connection too many")


def check_server(lab: Path) -> None:
    """Checks the replies of a server of the largest lab to the teacher's hello, a report, and three faults. Before each
    fault the teacher sees the node, so that the registers that it has then are checked too."""
    server = Server(lambda port: ["serve", str(lab), str(port), "1"], {})
    teacher = Client(server.port)
    node, form = NODES[0], '{{"at":{0},"dropped":0,"node":{1},"ok":"fault","place":{0}}}'
    lines = [(TESS, WELCOME), ('{"do":"report"}', report(False))]
    for place, (p, kept) in enumerate([(LAST, "null"), ("null", LAST), (LAST, "null")], 1):
        shown = f'{{"at":{place - 1},"m":false,"node":{node},"ok":"see","p":{kept}}}'
        lines += [(f'{{"do":"see","node":{node}}}', shown)]
        lines += [(f'{{"do":"fault","m":false,"node":{node},"p":{p}}}', form.format(place, node))]
    for line, reply in lines:
        if teacher.ask(f"{line}\n".encode()) != f"{reply}\n".encode():
            fail(f"another reply of a server of the largest lab to {line}")
    teacher.close()
    if server.end() != Ended(0, b"done: 3 events, configuration 3\n", b""):
        fail("another end of a server of the largest lab")


def check_greatest(room: Path) -> None:
    """Checks the size of the largest lab that the program prints, a script for this lab, and a server of it."""
    lab = room / "greatest.toml"
    lab.write_text(document(), encoding="ascii")
    if good(["check", str(lab)]) != b"ok: 256 nodes, 32640 links, 256 students\n":
        fail("another size of the largest lab")
    check_script(room, lab)
    check_server(lab)
