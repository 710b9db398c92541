"""The numbers, statuses and limits that the pages promise, each compared with its source.

Each text that one of the functions from `releases` to `times` yields has to be on its page. Times are those of
`tools.check.parts`, from which `./check` computes how long it will take. A page may round them.
"""
from __future__ import annotations

import re
from collections.abc import Iterator
from pathlib import Path

from classroom.bots import suites
from classroom.client import LOST, STOPS
from classroom.core import statuses
from classroom.run.run import CLOSING
from classroom.setup import keys
from classroom.setup.slips import FIRST_PORT
from classroom.setup.word_list import WORDS as KEY_WORDS
from tests.common import limits
from tools.build.__main__ import progress_of
from tools.build.crates import needed
from tools.check.parts import PROOFS, QUICK, minutes_of, wrong_beside

TOP = Path(__file__).resolve().parents[2]
README, TEACHER, STUDENT, COURSE, OPERATE = "README.md", "docs/TEACHER.md", "docs/STUDENT.md", "docs/COURSE.md", "docs/OPERATE.md"
SECURITY, LAB, JOURNAL, PROTOCOL = "SECURITY.md", "docs/LAB.md", "docs/JOURNAL.md", "docs/PROTOCOL.md"
WORDS = "none one two three four five six seven eight nine ten eleven twelve".split()
# The words for a time on a page, and the range of minutes for which they may be used.
ROUNDED = {"five minutes": (4, 7), "ten minutes": (7, 13), "half an hour or more": (25, 60), "an hour or more": (60, 110)}
PROCESSORS = 4  # the times on the pages are for this number of processors


def text(path: str) -> str:
    """Returns the content of a file of the repository."""
    return (TOP / path).read_text(encoding="utf-8")


def only(pattern: str, path: str) -> str:
    """Returns the single match of a pattern in a file of the repository, or of the pattern's group if it has one.
    Raises `ValueError` if there is no match or more than one."""
    found = re.findall(pattern, text(path), re.MULTILINE)
    if len(found) != 1:
        raise ValueError(f"{path} has {len(found)} times {pattern}")
    return str(found[0])


def releases() -> Iterator[tuple[str, str]]:
    """Yields the promises about releases, each as a page and a text: the archive's name, its requirements, and the
    limits in the service file."""
    name = f"cenduwa-{text('VERSION').strip()}-x86_64-linux"
    yield README, f"tar -xzf {name}.tar.gz && cd {name}\n"
    yield OPERATE, f"\nrelease={name}\n"
    python = only(r"^if sys\.version_info < \((\d+, \d+)\):", "class").replace(", ", ".")
    yield README, f"Python {python} or later for `class`)"
    yield OPERATE, f"Python {python} or later for `class`"
    examples = only(r'^EXAMPLES_PYTHON = "([\d.]+)"', "tools/check/python.py")
    yield STUDENT, f"`client.py` and `bot.py` need Python {examples} or later, and `./class` needs {python}."
    unit = "operate/cenduwa@.service"
    memory, tasks = only(r"^MemoryMax=(\d+)M$", unit), only(r"^TasksMax=(\d+)$", unit)
    yield OPERATE, f"with at most {memory} MB and {tasks} threads and processes."
    if only("^Restart=(.*)$", unit) == "no":
        yield OPERATE, "systemd never restarts it"


def classes() -> Iterator[tuple[str, str]]:
    """Yields the promises about labs, suites, defaults and statuses, each as a page and a text."""
    yield README, f"`examples/` has {WORDS[len(list((TOP / 'examples').glob('*.toml')))]} labs, "
    small, families = WORDS[len(suites.SMALL)], WORDS[len(suites.FAMILIES)]
    yield STUDENT, f"`grade` tries {small} cases, each in a new folder"
    yield COURSE, f"The suite `small` has {small} cases, and the suite `full` has {len(suites.FULL)}, on networks of {families} families, "
    yield TEACHER, f"starts the server at the port on the slips ({FIRST_PORT}, unless you chose another) or the next free one"
    yield TEACHER, f"when nothing further was granted for {WORDS[int(CLOSING.value)]} seconds."
    yield TEACHER, (f"\n| 0 | done |\n| {statuses.USAGE} | the command line is wrong |\n| {statuses.LAB} | the lab is refused |\n"
                    f"| {statuses.JOURNAL} | the journal is refused |\n| {statuses.FAILED} | any other error |\n| {statuses.WARNED} | done, with warnings |\n")
    status = {word: number for word, (number, _) in STOPS.items()}
    for number, what in ((0, "the run has ended"), (1, "the command line is wrong"), (status["unknown"], "the name or the key is wrong"),
                         (status["not-owner"], "the bot named a node that isn't yours, or sent a line that is no request"),
                         (4, "there is no server at the port"),
                         (status["busy"], "no seat became free for a minute"), (status["full"], "nothing is granted any longer"),
                         (LOST, "the connection was lost, and for a minute the bot couldn't greet again: start it again")):
        yield STUDENT, f"\n| {number} | {what} |\n"
    yield README, f"of {only(r'>([0-9]+) runs<', 'docs/experiment.svg')} runs]"


def greatest() -> Iterator[tuple[str, str]]:
    """Yields the promises about the limits of labs, files, lines and connections, each as a page and a text."""
    most = limits.MOST
    yield TEACHER, f"A lab has {most['sessions']} seats, one of them yours"
    yield TEACHER, f"\n1  school-1  A     4711  11        {most['sessions'] - 1}     http"
    yield LAB, f"for example `sessions {most['sessions']} count`"
    yield LAB, f"A lab or a script may have at most {most['lab']:,} bytes."
    for key, kind, what in (("events", "integer", f"1 to {most['events']} |"), ("sessions", "integer", f"1 to {most['sessions']} |"),
                            ("student", "array of tables, each with `name` and `key`", f"at most {most['students']} |"),
                            ("name", "string", f"1 to {most['name']} bytes "), ("key", "string", f"1 to {most['key']} bytes "),
                            ("node", "array of tables, each with `id`, `owner` or `owners`, and `p` and `m` if wanted", f"1 to {most['nodes']} |"),
                            ("id", "integer", f"1 to {most['identifier']}, "), ("owners", f"array of one or {WORDS[most['owners']]} strings", "")):
        yield LAB, f"\n| `{key}` | {kind} | {what}"
    yield LAB, f"| `id` isn't from 1 to {most['identifier']} |"
    yield LAB, f"| there are more than {most['nodes']} nodes |"
    yield JOURNAL, f"`audit` reads at most {most['journal']:,} bytes."
    yield PROTOCOL, f"has an identifier of its own, from 1 to {most['identifier']}."
    yield PROTOCOL, f"a request line of at most {most['line']} bytes"
    yield PROTOCOL, f"a script line has at most {len(str(most['sessions'])) + len(' ') + most['line']} bytes"
    yield PROTOCOL, f"On a socket, request lines have at most {most['line']} bytes"
    for what, seconds in (("at the students' port, the connection's `hello` isn't granted within", "greeting"),
                          ("at the desk, the teacher's `hello` isn't granted within", "desk-greeting"),
                          ("the client accepts no byte of a reply for", "write")):
        yield PROTOCOL, f"\n| {what} {WORDS[most[seconds]]} seconds |"
    yield PROTOCOL, f"\n| at the students' port, the client sends no line for {WORDS[most['next-line'] // 60]} minutes |"
    yield PROTOCOL, f"\n| the client sends a line of more than {most['line']} bytes |"
    yield STUDENT, f"no correct hello within {WORDS[most['greeting']]} seconds, or no line for {WORDS[most['next-line'] // 60]} minutes"
    yield STUDENT, f"a line of more than {most['line']} bytes"


def guesses() -> Iterator[tuple[str, str]]:
    """Yields the promises about the number of keys, and of guesses in a day, each as a page and a text."""
    count = len(set(KEY_WORDS)) ** keys.WORDS_EACH * 10 ** keys.DIGITS
    wait = only(r"^const DENIAL_INTERVAL: u64 = (\d+);", "crates/mml_ports/src/state.rt")
    a_day = 86400 * 1000 / int(wait)
    yield SECURITY, f"{WORDS[keys.WORDS_EACH]} words, each from a list of {len(set(KEY_WORDS))}, and {WORDS[keys.DIGITS]} digits"
    yield SECURITY, f"about {count / 1e12:.1f} million million ({keys.bits_of(keys.WORDS_EACH, keys.DIGITS):.1f} bits)"
    yield SECURITY, f"at most one wrong key in {wait} milliseconds over all connections. That makes {a_day / 1e6:.1f} million wrong keys in a day"
    yield SECURITY, f"a probability of about 1 in {round(count / a_day, -4):,.0f}"


def times() -> Iterator[tuple[str, tuple[str, ...]]]:
    """Yields for each time of a check or a build its page and the texts of which the page has to contain one. These
    texts differ in the words for the time (ROUNDED)."""
    proofs, quick = minutes_of([[PROOFS, wrong_beside()], QUICK], PROCESSORS)
    build = progress_of(needed(["mml_host"]), PROCESSORS).left(0.0) / 60
    for command, minutes in (("| `./check` | proves, builds and tests everything | {} |", proofs + quick),
                             ("| `./class demo` | builds the program if it isn't built yet, and runs a class with four bots | "
                              "ten seconds\\* if it is built, otherwise {} |", build),
                             ("| `./check quick` | runs the tests that need no proof, with the program that is built | {} |", quick),
                             ("| `./mml build` | proves and builds the program | {} |", build)):
        yield README, tuple(command.format(said) for said, (least, most) in ROUNDED.items() if least <= minutes <= most)


def faults() -> list[str]:
    """Returns an error text for each promise that isn't on its page."""
    wanted = [(page, (promise,)) for page, promise in (*releases(), *classes(), *greatest(), *guesses())] + [*times()]
    return [f"promised otherwise: {page}: {' or '.join(it.strip() for it in each)}" for page, each in wanted if not any(it in text(page) for it in each)]
