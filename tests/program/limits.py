"""The limits that the program prints are those of `tests.common.limits`. So is each copy of a limit elsewhere: in
`classroom`, in the model, in the schemas and in `bench`.

    python3 -B -m tests.program.limits
"""
import re
from collections.abc import Iterator
from pathlib import Path

from bench import inputs
from classroom import client
from classroom.core import answering
from classroom.door import passing
from classroom.pages import replay, web
from model import lab as model_lab
from model import record as model_record
from model import run as model_run
from model import words as model_words
from tests.common.hosting import HOST
from tests.common.limits import LIMITS, MOST, TEXT
from tests.common.preload import TOP, Ended, fail, in_room, run
from tests.documents.numbers import WORDS

Copy = tuple[str, object, object]  # a copy of a limit: its name, its value, and the value that it has to have
# The threads and processes of a run under the service: one for each session, one for each connection to each of two
# pages and one more for each page, and OTHERS for the host, the run, the door and the programs that these start.
PAGES, OTHERS = 2, 24
LEAST_LITERAL = 1000  # smaller numbers in the launcher aren't taken for limits


def text_of(path: str) -> str:
    """Returns the text of a file of the repository."""
    return (TOP / path).read_text(encoding="utf-8")


def number_in(path: str, pattern: str) -> int:
    """Returns the number that a pattern with one group finds in a file of the repository. Fails unless the pattern
    matches exactly once."""
    found = re.findall(pattern, text_of(path), re.MULTILINE)
    if len(found) != 1:
        fail(f"{path} has {len(found)} times {pattern}")
    return int(found[0])


def of_clients_and_schemas() -> Iterator[Copy]:
    """Yields the copies of limits in the client that students copy, in the door, and in the schemas. None of these can
    ask the program for its limits."""
    yield "classroom.client.MOST", client.MOST, MOST["line"]
    yield "classroom.client.GREETING", client.GREETING, MOST["greeting"]
    yield "classroom.client.NEXT_LINE", client.NEXT_LINE, MOST["next-line"]
    yield "classroom.client.LAST", client.LAST["late"], (f"no hello was granted within {WORDS[MOST['greeting']]} seconds, "
                                                         f"or no line came within {WORDS[MOST['next-line'] // 60]} minutes")
    yield "classroom.door.passing.FIRST", passing.FIRST, MOST["greeting"]
    yield "the bytes of a line in docs/requests.schema.json", number_in("docs/requests.schema.json", r"with at most (\d+) bytes"), MOST["line"]
    yield "the greatest node in docs/replies.schema.json", number_in("docs/replies.schema.json", r'"maximum": (\d{3,})$'), MOST["identifier"]


def of_model_and_bench() -> Iterator[Copy]:
    """Yields the copies of limits in the plain model and in `bench`, whose folder `typed` has the same rules in
    Rust."""
    yield "model.lab.MOST_NODES", model_lab.MOST_NODES, MOST["nodes"]
    yield "model.lab.MOST_STUDENTS", model_lab.MOST_STUDENTS, MOST["students"]
    yield "model.lab.MOST_EVENTS", model_lab.MOST_EVENTS, MOST["events"]
    yield "model.lab.MOST_SESSIONS", model_lab.MOST_SESSIONS, MOST["sessions"]
    yield "model.lab.GREATEST_ID", model_lab.GREATEST_ID, MOST["identifier"]
    yield "model.lab.NAME", model_lab.NAME, f"[a-z][a-z0-9-]{{0,{MOST['name'] - 1}}}"
    yield "model.lab.KEY", model_lab.KEY, f"[!-~]{{1,{MOST['key']}}}"
    yield "model.run.LONGEST_REQUEST", model_run.LONGEST_REQUEST, MOST["line"]
    yield "model.run.LONGEST_LINE", model_run.LONGEST_LINE, len(f"{MOST['sessions']} ") + MOST["line"]
    yield "model.record.MOST_RECORD", model_record.MOST_RECORD, MOST["seat-read"]
    yield "model.words.MOST_FILE", model_words.MOST_FILE, MOST["lab"]
    yield "model.words.MOST_JOURNAL", model_words.MOST_JOURNAL, MOST["journal"]
    yield "bench.inputs.EVENTS", inputs.EVENTS, MOST["events"]
    yield "MAX_LINE in bench/typed", number_in("bench/typed/src/serving.rs", r"^const MAX_LINE: usize = (\d+);$"), MOST["line"]


def check_what_has_to_fit() -> None:
    """Fails if something that has to fit into a limit is larger: the scripts that `class` makes, or the threads and
    processes (tasks) of the service."""
    for name, most in (("classroom.core.answering.MOST_SCRIPT", answering.MOST_SCRIPT), ("classroom.pages.replay.SCRIPT_LIMIT", replay.SCRIPT_LIMIT)):
        if most + MOST["line"] > MOST["lab"]:
            fail(f"{name} is {most}, and a script may have {MOST['lab']} bytes")
    tasks = number_in("operate/cenduwa@.service", r"^TasksMax=(\d+)$")
    needed = MOST["sessions"] + PAGES * (web.CONNECTIONS + 1) + OTHERS
    if tasks < needed:
        fail(f"TasksMax={tasks} is too few for a lab of {MOST['sessions']} sessions, which needs {needed}")


def check_launcher() -> None:
    """Fails if the launcher, the shell script `mml`, has a limit as a number. It has to ask the program for its
    limits."""
    literals = set(map(int, re.findall(r"\b\d+\b", text_of("mml")))) & {most for most in MOST.values() if most >= LEAST_LITERAL}
    if literals:
        fail(f"mml has {sorted(literals)}, which are limits of the program")


def work(_room: Path) -> str:
    """Compares the output of the command `limits`, and each copy of a limit, with `tests.common.limits`. Returns a line
    with the numbers of both."""
    found = run(["limits"], b"", {}, HOST)
    if found != Ended(0, TEXT.encode(), b""):
        fail(f"limits: {found}")
    refused = run(["limits", "all"], b"", {}, HOST)
    if refused != Ended(1, b"", b"command line: not understood\n"):
        fail(f"limits all: {refused}")
    copies = [*of_clients_and_schemas(), *of_model_and_bench()]
    for name, is_there, wanted in copies:
        if is_there != wanted:
            fail(f"{name} is {is_there}, and not {wanted}")
    check_what_has_to_fit()
    check_launcher()
    return f"limits: {len(LIMITS)} lines, and {len(copies)} copies of their numbers"


if __name__ == "__main__":
    in_room(work)
