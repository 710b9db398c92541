"""Scripts whose journal may have at most N bytes, for each number N up to the size of the whole journal. When a line
doesn't fit, the journal is *halted*: each further event is refused.

    python3 -B -m tests.program.halted

The limit is the system's limit on file sizes, so a write beyond it is incomplete, and the next one fails. The expected
replies to the second line are written by hand, and all others follow from the replies of the whole run.
"""
import resource
import signal
import subprocess
from pathlib import Path

from tests.common.lines import refusal_of
from tests.common.preload import LIMIT, PROGRAM, TOP, Ended, built_in, fail, in_room

JOURNAL = (TOP / "examples/whole-run.journal").read_bytes()
HALT = refusal_of("journal")
GREETINGS = b"""1 {"do":"hello","key":"a-key","name":"ana"}
2 {"do":"hello","key":"b-key","name":"ben"}
3 {"do":"hello","key":"c-key","name":"cyd"}
4 {"do":"hello","key":"chalk","name":"tess"}
"""
WELCOMES = b"""1 {"ok":"hello","who":"ana"}
2 {"ok":"hello","who":"ben"}
3 {"ok":"hello","who":"cyd"}
4 {"ok":"hello","who":"tess"}
"""

# The second move finds no room in the journal. Looks and denied lines after it are still answered.
ASKED = b"""1 {"at":0,"do":"move","node":1,"rule":"seduction"}
2 {"at":0,"do":"move","node":2,"rule":"seduction"}
2 {"do":"look","node":2}
1 {"at":0,"do":"move","node":1,"rule":"seduction"}
2 {"at":0,"do":"move","node":2,"rule":"seduction"}
4 {"do":"close"}
4 {"do":"release","node":1}
4 {"do":"fault","m":true,"node":3,"p":null}
4 {"a":1,"b":3,"do":"link"}
4 {"a":1,"b":2,"do":"cut"}
4 {"a":1,"b":3,"do":"cut"}
3 {"do":"bye"}
"""
ANSWERED = b"""1 {"at":0,"node":1,"ok":"move","place":1,"rule":"seduction"}
2 {"refuse":"journal"}
2 {"at":0,"chosen":null,"m":false,"near":[{"m":false,"node":1,"p":null},{"m":false,"node":3,"p":null}],"node":2,"ok":"look","p":null,"rule":"seduction"}
1 {"clause":3,"deny":"chosen","text":"this node is already chosen"}
2 {"refuse":"journal"}
4 {"refuse":"journal"}
4 {"refuse":"journal"}
4 {"refuse":"journal"}
4 {"refuse":"journal"}
4 {"refuse":"journal"}
4 {"clause":3,"deny":"not-linked","text":"these nodes are not linked"}
3 {"ok":"bye"}
"""


class Limited:
    """Scripts for the built-in lab, with a limit on the journal's file."""

    def __init__(self, room: Path) -> None:
        """Writes the built-in lab into the folder `room`. `run` writes its script and its journal there, too."""
        self.lab, self.script, self.journal = built_in(room), room / "limited.script", room / "limited.journal"

    def run(self, script: bytes, most: int) -> tuple[Ended, bytes]:
        """Runs a script while the journal's file may have at most `most` bytes. Returns the program's status and
        output, and the journal."""
        self.script.write_bytes(script)
        self.journal.unlink(missing_ok=True)

        def limit() -> None:
            """Limits the size of files. Ignores SIGXFSZ, the signal at this limit, so that a write fails instead."""
            signal.signal(signal.SIGXFSZ, signal.SIG_IGN)
            resource.setrlimit(resource.RLIMIT_FSIZE, (most, most))

        words: list[str | Path] = [PROGRAM, "script", self.lab, self.script, self.journal]
        done = subprocess.run(words, capture_output=True, env=dict[str, str](), timeout=LIMIT, check=False, preexec_fn=limit)
        return Ended(done.returncode, done.stdout, done.stderr), self.journal.read_bytes()


def hellos_and_events(script: bytes, replies: bytes) -> tuple[list[bytes], list[bytes]]:
    """Returns the lines of a script that are hellos or granted events, and their replies. `replies` are those to all
    its lines."""
    pairs = list(zip(script.splitlines(keepends=True), replies.splitlines(keepends=True)))
    acts = [(line, reply) for line, reply in pairs if b'"place":' in reply or b'"hello"' in reply]
    return [line for line, _ in acts], [reply for _, reply in acts]


def is_refused(reply: bytes) -> bool:
    """Returns whether a reply is a denial, or the refusal `journal`."""
    return reply.endswith(HALT) or b'"deny":' in reply


def fault_of(ended: Ended, most: int, replies: list[bytes]) -> str:
    """Returns what is wrong with a run whose journal had room for `most` bytes, or an empty text. `replies` are those
    of the whole run."""
    if most >= len(JOURNAL):
        return "" if ended == Ended(0, b"".join(replies), b"") else "it doesn't end well"
    granted = 4 + JOURNAL[:most].count(b"\n")  # four hellos, and the events whose lines fit
    found = ended.out.splitlines(keepends=True)
    if (ended.status, ended.error) != (4, b"journal fault\n"):
        return "another status or error line"
    if found[:granted] != replies[:granted] or len(found) != len(replies):
        return "another reply to an event whose line was taken"
    if not found[granted].endswith(HALT) or not all(map(is_refused, found[granted:])):
        return "an event whose line wasn't taken"
    return ""


def work(room: Path) -> str:
    """Checks each limit, and the lines that are refused after a halt. Returns a line about these checks."""
    limited = Limited(room)
    ended, journal = limited.run(GREETINGS + ASKED, JOURNAL.index(b"\n") + 1)
    if ended != Ended(4, WELCOMES + ANSWERED, b"journal fault\n") or journal != b"1 0 grant ana 1 seduction\n":
        fail(f"another end of a run whose second line isn't taken: {ended} {journal!r}")
    script, out = (TOP / f"examples/whole-run.{kind}" for kind in ("script", "out"))
    acts, replies = hellos_and_events(script.read_bytes(), out.read_bytes())
    for most in range(len(JOURNAL) + 2):
        ended, journal = limited.run(b"".join(acts), most)
        fault = fault_of(ended, most, replies) or ("" if journal == JOURNAL[:most] else f"another journal {journal!r}")
        if fault:
            fail(f"if {most} bytes of the journal are taken: {fault}: {ended}")
    return f"{len(JOURNAL) + 2} journals that were cut off have each byte that was taken, and no event after it"


if __name__ == "__main__":
    in_room(work)
