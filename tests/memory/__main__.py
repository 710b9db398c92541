"""Refuses the program each request for memory in turn, and in other runs all requests from that one on.

    python3 -m tests.memory           all of it
    python3 -m tests.memory uses      the program alone
    python3 -m tests.memory hosts     the commands that judge a class or answer a script
    python3 -m tests.memory classes   the commands `host` and `resume` alone
    python3 -m tests.memory tests     the tests inside the crates alone

A *use* is a command with its arguments and its input. A preloaded library (`refuse.c`) refuses the program memory. Each
use is run several times. In the first run the first request for memory is refused, in the next one the second
request, and so on, until a run meets no refusal. Each run ends with status 5 and the line `out of memory`, and changes
nothing, or it continues. Then it answers some lines by `memory`, and all other lines as a plain run without those
lines. Its journal is that of the plain run, and passes the audit. Each line is twice in the script, so that a refused
line is asked again. Then the tests named `refusals_..` are run under the same library, in the programs that `rt ci`
leaves.
"""
import subprocess
import sys
from collections.abc import Callable
from pathlib import Path

from tests.common.preload import LIMIT, TOP, Ended, Preloaded, Server, Story, built_in, fail, in_room, play, run
from tests.memory.classes import classes
from tests.memory.hosts import host_uses
from tests.memory.refusing import OUT_OF_MEMORY, Tried, Use, done_line, memories, refuse_all, whole


def fault_and_replies(story: Story, ended: Ended) -> tuple[str, list[bytes]]:
    """Returns two values: what is wrong with the end and the replies of a story's script, or an empty text, and then
    these replies. `ended` is the end of the run."""
    replies = ended.out.splitlines(keepends=True)
    if ended.status != 0 or ended.error:
        return "another end", replies
    if len(replies) != len(story.lines):
        return "a line without a reply", replies
    return story.fault_in(replies, frozenset()), replies


def scripted(story: Story, room: Path, name: str) -> Use:
    """Returns the use of a script: on standard input if `name` is empty, and otherwise from a file of this name and
    with a journal."""
    script, journal, with_words = room / f"{name}.script", room / f"{name}.journal", bool(name)
    script.write_bytes(story.script())
    words = ["script", str(story.lab), str(script), str(journal)] if with_words else []
    given = b"" if with_words else story.script()

    def run_script(variables: dict[str, str]) -> Tried:
        """Runs the script while `variables` make the library refuse memory. Returns its end, what is wrong, and the
        number of replies `memory`."""
        journal.unlink(missing_ok=True)
        ended = run(words, given, variables)
        if ended == OUT_OF_MEMORY:
            return Tried(ended, "", 0)
        fault, replies = fault_and_replies(story, ended)
        if not fault and with_words:
            story.audit(journal.read_bytes())
            if journal.read_bytes() != story.journal_of(replies, frozenset()):
                fault = "another journal"
        return Tried(ended, fault, memories(replies))

    return run_script


def fault_of_end(ended: Ended, replies: list[bytes], audited: bytes) -> str:
    """Returns what is wrong with the end of a server that gave these replies, or an empty text. `audited` is the output
    of the audit of its journal."""
    done = done_line(audited)
    # If there was no memory for a new session, its connection was closed, and the last line reports that.
    wanted = Ended(5, done, b"out of memory\n") if b"" in replies else Ended(0, done, b"")
    # If no thread can be started, the connections that were accepted are served to their ends, and `done` isn't
    # printed.
    return "" if ended in (wanted, OUT_OF_MEMORY) else "another end"


def closed_after_a_reply(story: Story, unasked: frozenset[int]) -> str:
    """Returns a text about a connection that was closed after one of its lines was answered, or an empty text. Without
    memory the server may only close a connection before its first reply. `unasked` has the numbers of the lines without
    a reply."""
    begun = set()
    for at, line in enumerate(story.lines):
        number = line.split(b" ", 1)[0]
        if at not in unasked:
            begun.add(number)
        elif number in begun:
            return f"connection {number.decode()} was closed after its first line"
    return ""


def served(story: Story, room: Path) -> Use:
    """Returns the use of a server with a journal and two clients."""
    journal = room / "served.journal"

    def run_server(variables: dict[str, str]) -> Tried:
        """Runs the server while `variables` make the library refuse memory. Returns its end, what is wrong, and the
        number of replies `memory`."""
        journal.unlink(missing_ok=True)
        server = Server(lambda port: ["serve", str(story.lab), str(port), "2", str(journal)], variables)
        if not server.listens:
            return Tried(server.end(), "" if server.end() == OUT_OF_MEMORY else "another end", 0)
        replies, unasked = play(story, server.port)
        ended = server.end()
        kept = journal.read_bytes()
        fault = (
            closed_after_a_reply(story, unasked)
            or story.fault_in(replies, unasked)
            or fault_of_end(ended, replies, story.audit(kept))
            or ("" if kept == story.journal_of(replies, unasked) else "another journal")
        )
        return Tried(ended, fault, memories(replies))

    return run_server


def refused_tests(library: Preloaded) -> str:
    """Runs the crates' tests named `refusals_..` again, with the library. Each of them checks that it met refusals.
    Returns a line with their number. Fails if a test fails, or if there is none."""
    count = 0
    for program in sorted(TOP.glob("crates/*/out/*_tests")):
        listed = subprocess.run([program, "--list"], capture_output=True, env=dict[str, str](), timeout=LIMIT, check=True)
        for line in listed.stdout.decode().splitlines():
            name = line.removesuffix(": test")
            if not name.rsplit("::", 1)[-1].startswith("refusals_"):
                continue
            # Each of these tests controls the library itself, by requests of more bytes than any machine has.
            done = subprocess.run(
                [program, name], capture_output=True, env=library.variables({}), timeout=LIMIT, check=False
            )
            if done.returncode != 0 or b"test result: ok" not in done.stdout:
                fail(f"{program.name} {name}: {done.stdout.decode()}{done.stderr.decode()}")
            count += 1
    if count == 0:
        fail("no test of refusals was left by the proofs")
    return f"{count} tests under refusals"


def refused_uses(library: Preloaded, room: Path) -> str:
    """Refuses memory in uses of the commands `check`, `script`, `audit` and `serve`, and in one without a command.
    Returns a text with the number of refusals in each use."""
    lab = built_in(room)
    lines = (TOP / "examples/whole-run.script").read_bytes().splitlines(keepends=True)
    story, once = Story(lab, b"".join(line + line for line in lines), room), Story(lab, b"".join(lines), room)
    two = [line for line in lines if line[:1] in b"14"]
    # The lines of ana and of the teacher, each twice, for a server of two connections. The teacher's is the second one.
    pair = Story(lab, b"".join(line.replace(b"4 ", b"2 ", 1) * 2 for line in two), room)
    uses = {
        "no words": scripted(story, room, ""),
        "check": whole(["check", str(lab)]),
        "script": scripted(story, room, "twice"),
        "script, each line once": scripted(once, room, "once"),
        "audit": whole(["audit", str(lab), str(TOP / "examples/whole-run.journal")]),
        "serve": served(pair, room),
    }
    return "refusals met: " + ", ".join(refuse_all(name, use, library) for name, use in uses.items())


def refused_hosts(library: Preloaded, room: Path) -> str:
    """Refuses memory in uses of the commands that judge a class or answer a script. Returns a text with the number of
    refusals in each use."""
    return "by a host: " + ", ".join(refuse_all(name, use, library) for name, use in host_uses(room).items())


def work(room: Path) -> str:
    """Runs the part that the argument names, or all parts if there is no argument. Returns their texts in one line.
    Exits with status 1 if there is no such part, or if there are several arguments."""
    parts: dict[str, Callable[[Preloaded, Path], str]] = {
        "uses": refused_uses, "hosts": refused_hosts, "classes": classes, "tests": lambda library, _: refused_tests(library),
    }
    chosen = [part for name, part in parts.items() if sys.argv[1:] in ([], [name])]
    if not chosen:
        sys.exit(f"there is no part {' '.join(sys.argv[1:])}: write one of {', '.join(parts)}, or nothing for all of them")
    library = Preloaded("memory/refuse.c", room, "REFUSE_COUNTS")
    return "; ".join(part(library, room) for part in chosen)


if __name__ == "__main__":
    in_room(work)
