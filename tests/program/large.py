"""Plays runs whose numbers need more than one or two bytes: the largest lab, reports of all nodes, and 100,000
events.

    python3 -m tests.program.large

The expected replies are computed here, from the form of a reply and the numbers of the request.
"""
import socket
import subprocess
from collections.abc import Iterable
from pathlib import Path

from tests.common.hosting import HOST
from tests.common.preload import LIMIT, Server, Story, fail, good, in_room
from tests.program.greatest import EVENTS, check_greatest

NODES = 256
PART = 1000  # requests that are sent at once
HELLO = '{"do":"hello","key":"chalk","name":"tess"}\n'
WELCOME = '{"ok":"hello","who":"tess"}\n'
CUT, FULL = '{"a":1,"b":2,"do":"cut"}\n', '{"refuse":"full"}\n'
PEOPLE = """teacher = { name = "tess", key = "chalk" }
student = [{ name = "ana", key = "a-key" }]
"""


def lab(room: Path, nodes: Iterable[str], links: str, events: int) -> Path:
    """Writes a lab with these nodes and links, one session and this limit of events, and returns its path."""
    file = room / "large.toml"
    file.write_text(
        f"events = {events}\nsessions = 1\n{PEOPLE}links = [{links}]\nnode = [{', '.join(nodes)}]\n", encoding="ascii"
    )
    return file


def check_report(room: Path, file: Path, wanted: str) -> None:
    """Checks that the teacher gets this report of the lab in a file, and that a student gets a denial and can go on."""
    script = room / "large.script"
    lines = [HELLO, '{"do":"report"}\n', '{"do":"bye"}\n', '{"do":"hello","key":"a-key","name":"ana"}\n',
             '{"do":"report"}\n', '{"do":"bye"}\n']
    script.write_text("".join(f"1 {line}" for line in lines), encoding="ascii")
    replies = [WELCOME, wanted, '{"ok":"bye"}\n', '{"ok":"hello","who":"ana"}\n',
               '{"clause":1,"deny":"not-teacher","text":"only the teacher may do this"}\n', '{"ok":"bye"}\n']
    if good(["script", str(file), str(script)]).decode() != "".join(f"1 {reply}" for reply in replies):
        fail("another report of 256 nodes")


def check_reports(room: Path) -> None:
    """Checks the reports of 256 nodes without a link, and of 128 pairs."""
    ids = range(1, NODES + 1)
    free = ",".join(str(node) for node in ids)
    alone = [f'{{ id = {node}, owner = "ana" }}' for node in ids]
    ended = '"privileged":[],"stable":true}\n'
    check_report(room, lab(room, alone, "", 1), f'{{"at":0,"free":[{free}],"ok":"report","open":[],"pairs":[],{ended}')
    pairs = ",".join(f"[{node},{node + 1}]" for node in ids[::2])
    married = [
        f'{{ id = {node}, owner = "ana", p = {node + 1 if node % 2 else node - 1}, m = true }}' for node in ids
    ]
    check_report(room, lab(room, married, pairs, 1), f'{{"at":0,"free":[],"ok":"report","open":[],"pairs":[{pairs}],{ended}')


def exchange(it: socket.socket, lines: list[str], replies: list[str]) -> None:
    """Sends lines at once on a connection, and checks their replies."""
    it.sendall("".join(lines).encode())
    wanted = "".join(replies).encode()
    found = b""
    while len(found) < len(wanted):
        more = it.recv(1 << 16)
        if not more:
            break
        found += more
    if found != wanted:
        fail(f"another reply among those to {lines[0]!r} and {len(lines) - 1} lines more")


def changes(places: Iterable[int]) -> tuple[list[str], list[str]]:
    """Returns requests that cut a link and add it again in turn, and their replies. `places` are those of the
    events."""
    words = [(place, "cut" if place % 2 else "link") for place in places]
    form = '{{"a":1,"at":{0},"b":2,"dropped":0,"ok":"{1}","place":{0}}}\n'
    return [f'{{"a":1,"b":2,"do":"{word}"}}\n' for _, word in words], [form.format(*it) for it in words]


def pair(room: Path) -> Path:
    """Writes a lab of two linked nodes with the greatest limit of events, and returns its path."""
    return lab(room, [f'{{ id = {node}, owner = "ana" }}' for node in (1, 2)], "[1, 2]", EVENTS)


def check_script(room: Path) -> None:
    """Cuts and adds a link by a script, as often as a lab allows, and once more."""
    lines, replies = changes(range(1, EVENTS + 1))
    script = "".join(f"1 {line}" for line in [HELLO, *lines, CUT]).encode("ascii")
    done = subprocess.run([HOST, "answer", pair(room)], input=script, capture_output=True, timeout=LIMIT, check=False)
    if (done.returncode, done.stdout.decode()) != (0, "".join(f"1 {reply}" for reply in [WELCOME, *replies, FULL])):
        fail(f"another reply in a script of {EVENTS} events, or its end: {done.returncode} {done.stderr!r}")


def check_server(room: Path) -> None:
    """Cuts and adds a link through a server, as often as a lab allows, and once more."""
    file, journal = pair(room), room / "large.journal"
    server = Server(lambda port: ["serve", str(file), str(port), "1", str(journal)], {})
    with socket.create_connection(("127.0.0.1", server.port), timeout=LIMIT) as it:
        exchange(it, [HELLO], [WELCOME])
        for first in range(1, EVENTS + 1, PART):
            exchange(it, *changes(range(first, first + PART)))
        exchange(it, [CUT], [FULL])
    ended = server.end()
    if ended.out != f"done: {EVENTS} events, configuration {EVENTS}\n".encode() or ended.status != 0:
        fail(f"another end after {EVENTS} events: {ended}")
    if not Story(file, b"", room).audit(journal.read_bytes()).startswith(f"ok: {EVENTS} events,".encode()):
        fail(f"another audit of {EVENTS} events")


def work(room: Path) -> str:
    """Checks the largest lab, reports of many nodes, and runs of many events. Returns a line with the numbers of nodes
    and events."""
    check_greatest(room)
    check_reports(room)
    check_script(room)
    check_server(room)
    return f"the largest lab, reports of {NODES} nodes, and {EVENTS} events of a script and of a server"


if __name__ == "__main__":
    in_room(work)
