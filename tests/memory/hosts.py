"""Uses of further commands to which memory is refused: `verify` and `tally`, which read a journal and a record, and
`answer`, which answers a script line by line."""
from pathlib import Path

from tests.common.hosting import HOST, Caller, Host, lab_of, let_in
from tests.common.lines import CLOSE, REPORT, fault_at, hello, look, seduction
from tests.common.preload import Story, fail, run
from tests.memory.refusing import OUT_OF_MEMORY, Tried, Use, memories, whole

# The lines of the teacher on the first connection, and those of a student on the second.
SAID = [
    (b"1 ", hello("tess")), (b"2 ", hello("ana")), (b"2 ", look("ana")), (b"1 ", fault_at(1)), (b"2 ", seduction(2)), (b"1 ", CLOSE),
    (b"2 ", look("ana")), (b"1 ", fault_at(1)), (b"1 ", REPORT),
]


def play(story: Story, host: Host) -> None:
    """Sends the lines of a story to a host, each on the connection with its number. The first connection is at the
    desk. Fails if a line gets no reply."""
    callers = dict[bytes, Caller]()
    for line in story.lines:
        number, asked = line.split(b" ", 1)
        if number not in callers:
            callers[number] = Caller(host.desk if number == b"1" else host.port)
        if not callers[number].ask(asked):
            fail(f"memory: a host that isn't refused any has no reply to {line!r}")
    for caller in callers.values():
        caller.close()


def host_uses(room: Path) -> dict[str, Use]:
    """Runs a class without refusals, and returns the uses of these commands with its files, by their names."""
    lab = lab_of(room, 4)
    # Each line is sent twice, so that a refused line is asked again.
    story = Story(lab, b"".join((number + line) * 2 for number, line in SAID), room)
    journal, record = room / "kept.journal", room / "kept record"
    with Host(lab, 0, 0, journal, record) as host:
        play(story, host)
        if host.dismiss(let_in(host.desk, hello("tess"))[0]).status != 0:
            fail("memory: a class that isn't refused any ends otherwise")
    words = [str(lab), str(journal)]
    return {
        "verify": whole(["verify", *words, str(record)], program=HOST),
        "tally": whole(["tally", *words], program=HOST),
        "tally with a record": whole(["tally", *words, str(record)], program=HOST),
        "answer": answered(story),
    }


def answered(story: Story) -> Use:
    """Returns the use of the command `answer`, which answers a script line by line."""
    def run_script(variables: dict[str, str]) -> Tried:
        """Runs the script while `variables` make the library refuse memory. Returns its end, what is wrong, and the
        number of replies `memory`."""
        ended = run(["answer", str(story.lab)], story.script(), variables, HOST)
        replies = ended.out.splitlines(keepends=True)
        if ended == OUT_OF_MEMORY:
            return Tried(ended, "", 0)
        fault = "another end" if ended.status or ended.error or len(replies) != len(story.lines) else story.fault_in(replies, frozenset())
        return Tried(ended, fault, memories(replies))

    return run_script
