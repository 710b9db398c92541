"""The teacher's bye at the desk ends the class, whatever comes before it in the same piece, and in whatever pieces
its reply is sent."""
import threading
import time
from collections.abc import Mapping
from concurrent.futures import ThreadPoolExecutor
from dataclasses import dataclass
from pathlib import Path

from tests.common.hosting import Caller, Host, lab_of, let_in
from tests.common.lines import BID, BYE, CLOSE, OVER, REPORT, fault_at, hello, line_of, look, seduction
from tests.common.preload import Preloaded, fail

SOON = 60.0  # seconds that a host may need to end on a slow machine
BETWEEN = 0.005  # seconds between two parts of a piece, so that the host reads each by itself
SIDE_BY_SIDE = 4  # the number of hosts at the same time
SHORT = 80  # if replies have fewer bytes, they are cut at each byte


@dataclass(frozen=True)
class Piece:
    """Lines of the teacher that are sent as one piece. The last one is a bye."""

    name: str
    before: bytes
    greets: bool = False  # Whether the hello is one of the lines.

    @property
    def whole(self) -> bytes:
        """Returns all bytes of the lines."""
        return self.before + BYE


PIECES = [
    Piece("close", CLOSE), Piece("see", line_of(do="see", node=2)), Piece("look", look("ben")), Piece("report", REPORT),
    Piece("fault", fault_at(2)), Piece("link", line_of(a=1, b=3, do="link")), Piece("release", line_of(do="release", node=1)),
    Piece("hello", hello("tess"), True), Piece("malformed", b"{}\n"), Piece("two lines", CLOSE + REPORT),
    Piece("hello and two lines", hello("tess") + CLOSE + REPORT, True),
]


class Asker:
    """A student who sends requests without a pause until they aren't answered any more."""

    def __init__(self, port: int) -> None:
        """Connects to a port, greets as the student ben, and starts the thread that sends the requests."""
        self.caller, _ = let_in(port, hello("ben"))
        self.said: list[tuple[float, bytes]] = []  # when each line was sent, and its reply
        self.thread = threading.Thread(target=self.ask, daemon=True)
        self.thread.start()

    def ask(self) -> None:
        """Sends requests until the reply is `over` or the connection has ended. Notes each reply in `said`."""
        while not self.said or self.said[-1][1] not in (OVER, b""):
            begun = time.monotonic()
            self.said.append((begun, self.caller.ask(look("ben"))))

    def after(self, moment: float) -> list[bytes]:
        """Waits until no request is answered any more, and closes the connection. Returns the replies to those requests
        that were sent after the time `moment`. Fails if the last request isn't answered within a time limit."""
        self.thread.join(SOON)
        if self.thread.is_alive():
            fail("outsiders: after the bye a student is neither answered nor hung up on")
        self.caller.close()
        return [reply for begun, reply in self.said if begun > moment]


def check_bye(lab: Path, piece: Piece, parts: list[bytes], variables: Mapping[str, str], how: str, stays: bool = False) -> None:
    """Sends the lines of `piece` to a host in these parts. Checks that after the reply to the bye only `over` is sent,
    and that the host ends by itself. The teacher's connection stays open until the students are answered or, if `stays`
    is set, until the host has ended. `variables` are added to the host's environment, and `how` describes the parts,
    for the error."""
    with Host(lab, 0, 0, variables=variables) as host:
        ana, _ = let_in(host.port, hello("ana"))
        if b'"place":1' not in ana.ask(seduction(0)):
            fail("outsiders: a move before the bye isn't granted")
        asker = Asker(host.port)
        teacher = Caller(host.desk) if piece.greets else let_in(host.desk, hello("tess"))[0]
        for at, part in enumerate(parts):
            time.sleep(BETWEEN if at else 0)
            teacher.send(part)
        replies = [teacher.line() for _ in piece.whole.splitlines()]
        moment = time.monotonic()
        if replies[-1] != BID or b"" in replies or teacher.line() != b"":
            fail(f"outsiders: {piece.name} and a bye {how} are answered {replies}")
        said = asker.after(moment)
        if any(reply not in (OVER, b"") for reply in said):
            fail(f"outsiders: after {piece.name} and a bye {how} {len(said)} lines are answered, as by {said[0]!r}")
        if not stays:
            teacher.close()
        ended = host.end(SOON)
        teacher.close()
        ana.close()
        if ended.status != 0 or not ended.out.startswith(b"done: "):
            fail(f"outsiders: after {piece.name} and a bye {how} a host ends with {ended}")


def cut_at(library: Preloaded, at: int, is_each: bool) -> dict[str, str]:
    """Returns the environment of a host that writes its reply to a bye, with the replies before it, in two pieces. The
    first piece has `at` bytes. If `is_each` is set, all further bytes are written one by one. If `at` is 0, nothing is
    cut."""
    return library.variables({"CUT": str(at), **({"CUT_EACH": "1"} if is_each else {})})


def byes_in_parts(room: Path) -> None:
    """The bye ends the class whether the lines before it are sent in one piece with it, or all are sent in two pieces,
    cut at each byte."""
    lab = lab_of(room, 5)
    for piece in PIECES:
        check_bye(lab, piece, [piece.whole], {}, "in one piece", True)
    cuts = [(piece, at) for piece in PIECES for at in range(1, len(piece.whole))]
    with ThreadPoolExecutor(SIDE_BY_SIDE) as pool:
        for _ in pool.map(lambda cut: check_bye(lab, cut[0], [cut[0].whole[:cut[1]], cut[0].whole[cut[1]:]], {}, f"cut at byte {cut[1]}"), cuts):
            pass


def byes_written_in_parts(room: Path) -> None:
    """The bye ends the class also if its reply, with the replies to the lines before it, is written in two pieces, cut
    at each byte, or byte by byte."""
    lab, library = lab_of(room, 5), Preloaded("outsiders/cut.c", room, "CUT_COUNTS")
    for piece in PIECES:
        check_bye(lab, piece, [piece.whole], cut_at(library, 0, False), "in one piece")
        size = library.counts()[0]  # the bytes of the replies, which the host has written at once
        # Long replies are only cut in the bytes of the reply to the bye, and just before them.
        first = 1 if size < SHORT else size - len(BID) - 3
        for at, is_each in [(1, True), *((at, False) for at in range(first, size))]:
            check_bye(lab, piece, [piece.whole], cut_at(library, at, is_each), f"whose reply is cut at byte {at}")
            if library.counts()[1] < 1:
                fail(f"outsiders: the reply to {piece.name} and a bye isn't cut at byte {at}")


TESTS = [byes_in_parts, byes_written_in_parts]
