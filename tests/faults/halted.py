"""Runs in which a write to the journal fails, with the expected replies written by hand. From then on the journal is
*halted*: no further event is granted, but views and denials are answered as before."""
from pathlib import Path

from tests.common.preload import Client, Ended, Preloaded, Server, Story, fail, play, run

SCRIPT = b"""\
1 {"do":"hello","key":"a-key","name":"ana"}
2 {"do":"hello","key":"b-key","name":"ben"}
4 {"do":"hello","key":"chalk","name":"tess"}
1 {"at":0,"do":"move","node":1,"rule":"seduction"}
2 {"at":0,"do":"move","node":2,"rule":"seduction"}
2 {"at":0,"do":"move","node":2,"rule":"seduction"}
4 {"do":"close"}
1 {"at":0,"do":"move","node":1,"rule":"seduction"}
2 {"do":"look","node":2}
"""
REPLIES = b"""\
1 {"ok":"hello","who":"ana"}
2 {"ok":"hello","who":"ben"}
4 {"ok":"hello","who":"tess"}
1 {"at":0,"node":1,"ok":"move","place":1,"rule":"seduction"}
2 {"refuse":"journal"}
2 {"refuse":"journal"}
4 {"refuse":"journal"}
1 {"clause":3,"deny":"chosen","text":"this node is already chosen"}
2 {"at":0,"chosen":null,"m":false,"near":[{"m":false,"node":1,"p":null},{"m":false,"node":3,"p":null}],"node":2,"ok":"look","p":null,"rule":"seduction"}
"""
JOURNAL = b"1 0 grant ana 1 seduction\n"
END = Ended(4, b"", b"journal fault\n")
NO_ACCEPT = Ended(4, b"", b"serve: cannot accept\n")
EIO, EMFILE = "5", "24"


def failing(library: Preloaded, kind: str, nth: int, error: str) -> dict[str, str]:
    """Returns the environment variables with which the library makes the nth call of a kind, such as `write`, fail with
    this error."""
    return library.variables({"FAIL": kind, "FAIL_AT": str(nth), "FAIL_WITH": error})


def check_script(lab: Path, room: Path, library: Preloaded) -> None:
    """Checks the end, the replies and the journal of a script whose second event can't be written, because `library`
    makes the second write fail. The files are written into the folder `room`."""
    script, journal = room / "halted.script", room / "halted.journal"
    script.write_bytes(SCRIPT)
    journal.unlink(missing_ok=True)
    ended = run(["script", str(lab), str(script), str(journal)], b"", failing(library, "write", 2, EIO))
    if (ended.status, ended.out, ended.error) != (END.status, REPLIES, END.error) or journal.read_bytes() != JOURNAL:
        fail(f"a script whose second write to the journal fails: {ended}")


def check_server(lab: Path, room: Path, library: Preloaded) -> None:
    """Checks a server whose second event can't be written, because `library` makes a write fail. This is the seventh
    write, after those of the server's first line, of four replies and of the first event. The files are written into
    the folder `room`."""
    journal = room / "halted.journal"
    journal.unlink(missing_ok=True)
    words = ["serve", str(lab)]
    server = Server(lambda port: [*words, str(port), "3", str(journal)], failing(library, "write", 7, EIO))
    replies, _ = play(Story(lab, SCRIPT, room), server.port)
    ended = server.end()
    if ended != END or b"".join(replies) != REPLIES or journal.read_bytes() != JOURNAL:
        fail(f"a server whose second write to the journal fails: {ended}, {replies}")


def check_unaccepted(lab: Path, library: Preloaded) -> None:
    """Checks a server whose journal takes nothing, and which can't accept its second connection, because `library`
    makes this `accept` fail. The first connection is served to its end."""
    words = ["serve", str(lab)]
    server = Server(lambda port: [*words, str(port), "2", "/dev/full"], failing(library, "accept", 2, EMFILE))
    client = Client(server.port)
    lines, wanted = (text.splitlines(keepends=True) for text in (SCRIPT, REPLIES))
    # Ana's hello and her move. The move gets the reply that the second move gets above: its event can't be written.
    replies = [client.ask(lines[at][2:]) for at in (0, 3)]
    client.close()
    ended = server.end()
    if ended != NO_ACCEPT or replies != [wanted[0][2:], wanted[4][2:]]:
        fail(f"a server that can't accept, with a journal that takes nothing: {ended}, {replies}")


def check_halted(lab: Path, room: Path, library: Preloaded) -> str:
    """Checks a script and servers whose journals fail in a run, and a connection that can't be accepted. Returns a line
    with the number of these checks."""
    check_script(lab, room, library)
    check_server(lab, room, library)
    check_unaccepted(lab, library)
    return "journals that fail in a run: 3"
