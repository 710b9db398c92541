"""Plays classes on a host (the server of a class), as a user runs it. The classes' connections come and go.

The classes are those of the built-in lab. Ana, Ben and Cyd are its students, and Tess is its teacher. Students connect
to one port, and the teacher to the other, the desk. A connection that is served has a seat. A `Talk` notes the lines of
several connections, and compares their replies with those of a script.

    python3 -m tests.host [WORD..]

With arguments, only the tests whose names contain one of them are run. The tests run side by side, because most of
them wait.
"""
import re
import socket
import threading
import time
from pathlib import Path

from tests.common.hosting import Bot, Caller, Host, Talk, audit, connect, lab_of, let_in
from tests.common.lines import BID, BUSY, BYE, CLOSE, LATE, NODES, OVER, REPORT, fault_at, greeted, hello, line_of, look
from tests.common.preload import Ended, fail, good
from tests.common.side_by_side import Test, try_all

# How a host ends that can't listen at a port, and how one ends whose class had no event.
NOT_LISTENING = Ended(4, b"", b"host: cannot listen\n")
NO_EVENTS = Ended(0, b"done: 0 events, configuration 0\n", b"")


def move(at: int, node: int, rule: str) -> bytes:
    """Returns the line that asks for a move of a node by a rule, in the configuration with the number `at`."""
    return line_of(at=at, do="move", node=node, rule=rule)


def play_move(talk: Talk, student: Caller, teacher: Caller, turn: int) -> None:
    """Sends a move of ana's node, its close, a look, and a fault that makes the move possible again. These are three
    events, which lead to the next two configurations. `turn` says how often this was done before in the class."""
    talk.ask(student, move(2 * turn, 1, "seduction"))
    talk.ask(teacher, CLOSE)
    talk.ask(student, look("ana"))
    talk.ask(teacher, fault_at(1))


def look_and_play(talk: Talk, student: Caller, teacher: Caller, turn: int) -> None:
    """Sends a hundred looks and reports, and then the requests of `play_move`, to which `turn` is passed."""
    for _ in range(50):
        talk.ask(student, look("ana"))
        talk.ask(teacher, REPORT)
        time.sleep(0.002)
    play_move(talk, student, teacher, turn)


def one_after_another(room: Path) -> None:
    """200 connections go through three seats. These connections end in every way: by a bye, by closing, within a line,
    by a reset. All replies and the journal are those of a script of the same lines."""
    lab, journal = lab_of(room, 4), room / "journal"
    with Host(lab, 0, 0, journal) as host:
        talk = Talk(lab, 4, room)
        teacher = talk.comes(host.desk, hello("tess"))
        for turn in range(200):
            name = list(NODES)[turn % 3]
            caller = talk.comes(host.port, hello(name))
            see = line_of(do="see", node=turn % 4)
            # The last three lines aren't granted: no such request, a second hello, and a request of the teacher's.
            for line in (look(name), see, line_of(do="dance"), hello("ben"), REPORT):
                talk.ask(caller, line)
            if name == "ana":
                play_move(talk, caller, teacher, turn // 3)
            if turn % 4 == 0:
                talk.leaves(caller)
                continue
            if turn % 4 == 1:
                caller.send(b'{"do":"look","no')
            caller.reset() if turn % 4 == 2 else caller.close()
            talk.note_end(caller)
        ended = host.dismiss(teacher)
    if ended.status != 0 or not ended.out.startswith(b"done: %d events, " % talk.events()) or ended.error:
        fail(f"host: another end after 200 connections: {ended}")
    talk.note(teacher, BYE, BID)
    talk.check(journal)


def through_one_seat(room: Path) -> None:
    """If there is one seat for students, a client that sees the end of its connection and connects again gets the seat.
    A newcomer waits half a second for a seat. So only a slow machine may answer `busy`, five times of 200 at most."""
    lab, busy = lab_of(room, 2), 0
    with Host(lab, 0, 0) as host:
        for _ in range(200):
            caller = Caller(host.port)
            if caller.ask(hello("ana")) == BUSY:
                busy += 1
            elif (caller.ask(BYE), caller.line()) != (BID, b""):
                fail("host: a connection goes on after its bye")
            caller.close()
    if busy > 5:
        fail(f"host: after the end of the connection before {busy} of 200 are answered `busy`")


def killed_in_a_line(room: Path) -> None:
    """A bot and the teacher's program are killed in the middle of a line, which has no effect. New connections
    continue."""
    lab, journal = lab_of(room, 2), room / "journal"
    with Host(lab, 0, 0, journal) as host:
        talk = Talk(lab, 2, room)
        teacher = Bot(talk, host.desk, [hello("tess"), REPORT])
        bot = Bot(talk, host.port, [hello("ana"), look("ana"), move(0, 1, "seduction"), look("ana")])
        bot.kill()
        student = talk.comes(host.port, hello("ana"))
        talk.ask(student, look("ana"))
        teacher.kill()
        again = talk.comes(host.desk, hello("tess"))
        for turn in range(3):
            talk.ask(again, CLOSE)
            talk.ask(student, look("ana"))
            talk.ask(again, fault_at(1))
            talk.ask(student, move(2 * turn + 2, 1, "seduction"))
        ended = host.dismiss(again)
    talk.note(again, BYE, BID)
    if ended != Ended(0, b"done: 10 events, configuration 6\n", b""):
        fail(f"host: another end after kills: {ended}")
    talk.check(journal)


def connect_often(port: int, count: int) -> None:
    """Opens and closes `count` connections to a port. Repeats those that fail."""
    made = 0
    while made < count:
        try:
            # Each connection occupies a port of its source address for a while, so there are a hundred addresses.
            Caller(port, f"127.0.0.{2 + made % 100}").close()
            made += 1
        except OSError:
            pass


def connect_and_close(room: Path) -> None:
    """While thousands of connections are opened and closed at once, the class goes on. Afterwards the host has as many
    threads and open files as before. Its memory grows at first, because threads keep some. In one of the first 27
    rounds of 2000 connections it has to grow by no more than a fiftieth."""
    lab, journal = lab_of(room, 4, 100_000), room / "journal"
    with Host(lab, 0, 0, journal) as host:
        talk = Talk(lab, 4, room)
        teacher, student = talk.comes(host.desk, hello("tess")), talk.comes(host.port, hello("ana"))
        threads, files = host.threads(), host.files()
        turns, held = 0, [0, host.kilobytes()]
        while (held[-1] - held[-2]) * 50 > held[-1] and len(held) < 30:
            loop = threading.Thread(target=connect_often, args=[host.port, 2000])
            loop.start()
            # A slow machine needs longer for these connections. All lines have to fit into a script of one megabyte.
            most = turns + 10
            while loop.is_alive() and turns < most:
                look_and_play(talk, student, teacher, turns)
                turns += 1
            loop.join()
            host.settles(threads, files, "after 2000 connections")
            held.append(host.kilobytes())
        if len(held) == 30:
            fail(f"host: each 2000 connections take memory: it holds {held} kB")
        talk.leaves(talk.comes(host.port, hello("ben")))
        ended = host.dismiss(teacher)
    talk.note(teacher, BYE, BID)
    if ended.status != 0 or ended.out != b"done: %d events, configuration %d\n" % (3 * turns, 2 * turns):
        fail(f"host: another end after many connections: {ended}")
    talk.check(journal)


def seconds_until_end(caller: Caller, begun: float, piece: bytes, every: float, left: list[bytes]) -> float:
    """Sends a piece every `every` seconds until the host ends the connection. Returns the seconds from the time `begun`
    until then, and appends the received lines to `left`. Fails after ten pieces."""
    sent, found = 0, b""
    while True:
        caller.socket.settimeout(every)
        try:
            more = caller.socket.recv(4096)
            if not more:
                break
            found += more
        except TimeoutError:
            caller.send(piece)
            sent += 1
        except ConnectionError:
            break
        if sent > 10:
            fail("host: a connection without a greeting isn't ended")
    caller.close()
    left += found.splitlines(keepends=True)
    return time.monotonic() - begun


def deadlines(room: Path) -> None:
    """A connection without a hello is closed after ten seconds, and after five at the desk, whatever it sends. The
    connection gets a line with the reason."""
    lab = lab_of(room, 16)
    with Host(lab, 0, 0) as host:
        early = let_in(host.port, hello("cyd"))[0]
        begun = time.monotonic()
        kept = [(host.port, b""), (host.port, b" "), (host.port, b"{}\n"), (host.port, look("ana")), (host.desk, b"{}\n")]
        callers = [(Caller(port), piece) for port, piece in kept]
        times: dict[int, float] = {}
        told: list[list[bytes]] = [[] for _ in kept]

        def watch(at: int) -> None:
            """Waits for the end of the connection with the number `at`. Notes its seconds and its lines."""
            times[at] = seconds_until_end(callers[at][0], begun, callers[at][1], 3.0, told[at])

        waits = [threading.Thread(target=watch, args=[at]) for at in range(len(kept))]
        for wait in waits:
            wait.start()
        for wait in waits:
            wait.join()
        # A second less than the time limits, since the connections are slightly older or younger than `begun` says.
        least = [4 if port == host.desk else 9 for port, _ in kept]
        if sorted(times) != [*range(len(kept))] or any(times[at] < least[at] for at in times):
            fail(f"host: connections without a greeting are ended after {times} seconds")
        if [lines[-1:] for lines in told] != [[LATE]] * len(kept):
            fail(f"host: connections without a greeting are answered {told}")
        # A client that has greeted may be silent for longer than the time limit of a hello.
        if early.ask(BYE) != BID:
            fail("host: who is silent after a greeting is ended too")
        if host.dismiss(let_in(host.desk, hello("tess"))[0]) != NO_EVENTS:
            fail("host: another end after silent connections")


def check_busy(port: int) -> None:
    """Checks that new connections to a full port are answered `busy` and closed, whether they send nothing, a hello or
    a bye."""
    for line in (b"", hello("ana"), BYE):
        caller = Caller(port)
        if line:
            caller.send(line)
        said = caller.line(), caller.line()
        if said != (BUSY, b""):
            fail(f"host: a full host says {said}")
        caller.close()


def says_busy(room: Path) -> None:
    """If all seats are taken, the host answers `busy`, at each port separately. When a connection leaves, a new
    one gets its seat."""
    lab = lab_of(room, 3)
    with Host(lab, 0, 0) as host:
        ana, _ = let_in(host.port, hello("ana"))
        ben, _ = let_in(host.port, hello("ben"))
        check_busy(host.port)
        tess, _ = let_in(host.desk, hello("tess"))
        check_busy(host.desk)
        check_busy(host.port)
        if (ana.ask(BYE), ana.line()) != (BID, b""):
            fail("host: no end after a bye")
        cyd, reply = let_in(host.port, hello("cyd"))
        if reply != greeted("cyd") or not ben.ask(look("ben")).startswith(b'{"at":0'):
            fail("host: a seat that was left isn't given to the next")
        check_busy(host.port)
        if host.dismiss(tess) != NO_EVENTS or (ben.line(), ben.line(), cyd.line()) != (OVER, b"", OVER):
            fail("host: another end of a full host")
    alone = lab_of(room, 1)
    with Host(alone, 0, 0) as host:
        check_busy(host.port)
        if host.dismiss(let_in(host.desk, hello("tess"))[0]) != NO_EVENTS:
            fail("host: another end of a host for the desk alone")


def two_of_one_name(room: Path) -> None:
    """Two connections with the same name are both served, and only one of them is granted a node's move."""
    lab, journal = lab_of(room, 3), room / "journal"
    with Host(lab, 0, 0, journal) as host:
        talk = Talk(lab, 3, room)
        one, two = (talk.comes(host.port, hello("ana")) for _ in range(2))
        teacher = talk.comes(host.desk, hello("tess"))
        for line in (look("ana"), move(0, 1, "seduction"), look("ana")):
            talk.ask(two, line)
            talk.ask(one, line)
        talk.ask(teacher, CLOSE)
        talk.leaves(one)
        talk.ask(two, look("ana"))
        if host.dismiss(teacher) != Ended(0, b"done: 2 events, configuration 1\n", b""):
            fail("host: another end of two of one name")
    talk.note(teacher, BYE, BID)
    talk.check(journal)


def raced(room: Path) -> None:
    """Two students' moves and a close are sent at the same time, two hundred times. Each event of the journal is in one
    reply, and the journal passes the audit. Every twenty turns the students connect again."""
    lab, journal = lab_of(room, 3, 10_000), room / "journal"
    told: list[bytes] = []
    with Host(lab, 0, 0, journal) as host:
        tess = let_in(host.desk, hello("tess"))[0]
        for turn in range(200):
            if turn % 20 == 0:
                ana, ben = (let_in(host.port, hello(name))[0] for name in ("ana", "ben"))
            at = int(ana.ask(look("ana"))[6:].split(b",", 1)[0])  # the number after `{"at":`
            three = [(ana, move(at, 1, "seduction")), (ben, move(at, 2, "seduction")), (tess, CLOSE)]
            # In each turn another of the three is the first.
            for caller, line in three[turn % 3:] + three[:turn % 3]:
                caller.send(line)
            told += [caller.line() for caller, _ in three]
            # The close applies what is left of the moves. The faults make both moves possible again.
            told.append(tess.ask(CLOSE))
            told += [tess.ask(fault_at(node)) for node in (1, 2)]
            if turn % 20 == 19:
                for caller in (ana, ben):
                    caller.close()
        ended = host.dismiss(tess)
    places = sorted(int(place) for reply in told for place in re.findall(rb'"place":(\d+)', reply))
    events = len(journal.read_bytes().splitlines())
    # In each turn at least one move, one close and the two faults are granted.
    if places != list(range(1, events + 1)) or events < 4 * 200:
        fail(f"host: {len(places)} events of {events} are reported, or not each once")
    number = audit(lab, journal, events).split(b"configuration ")[1].split(b",")[0]
    if ended != Ended(0, b"done: %d events, configuration %s\n" % (events, number), b""):
        fail(f"host: another end of raced moves: {ended}")


# The byes that end only their own connections: whether each is said at the desk, and the lines before it.
BYES: list[tuple[bool, list[bytes]]] = [
    (True, []),  # nobody has greeted
    (True, [hello("ana")]),  # a student at the desk
    (True, [line_of(do="hello", key="chalk-", name="tess")]),  # the teacher's name with a wrong key
    (True, [hello("ana"), hello("tess")]),  # a student, whose second hello is denied
    (False, []),  # nobody has greeted
    (False, [hello("tess"), REPORT]),  # the teacher at the students' port
    (False, [hello("ben")]),  # a student
]


def byes_that_end_nothing(room: Path) -> None:
    """Only a bye at the desk after the teacher's granted hello ends the class. Any other bye ends only its own
    connection: one at the desk without a granted hello or after that of a student, and every one at the students' port
    (BYES). The class also goes on if the teacher's connection ends without a bye."""
    lab, journal = lab_of(room, 4), room / "journal"
    with Host(lab, 0, 0, journal) as host:
        talk = Talk(lab, 4, room)
        student = talk.comes(host.port, hello("ana"))
        for is_desk, lines in BYES:
            port = host.desk if is_desk else host.port
            if lines:
                caller = talk.comes(port, lines[0])
                for line in lines[1:]:
                    talk.ask(caller, line)
                talk.leaves(caller)
            else:
                caller, reply = let_in(port, BYE)
                if reply != BID or caller.line():
                    fail("host: another reply to a bye without a greeting")
                caller.close()
            talk.ask(student, look("ana"))
        # If the teacher's program ends without a bye, that doesn't end the class either.
        for leave in (Caller.close, Caller.reset):
            fallen = talk.comes(host.desk, hello("tess"))
            leave(fallen)
            talk.note_end(fallen)
        talk.ask(student, move(0, 1, "seduction"))
        teacher = talk.comes(host.desk, hello("tess"))
        if not host.is_running() or host.dismiss(teacher) != Ended(0, b"done: 1 events, configuration 0\n", b""):
            fail("host: another end after byes that end nothing")
        if (student.line(), student.line()) != (OVER, b""):
            fail("host: a student is still served, or isn't answered that the class is over")
    talk.note(teacher, BYE, BID)
    talk.check(journal)


def ask_until_over(port: int, name: str, asked: threading.Semaphore, wrong: list[str]) -> None:
    """Sends looks and moves as the student `name` until the class is over or the host hangs up. Releases `asked` after
    each look and move. Appends a text to `wrong` for each reply that a seduction can't have."""
    caller, _ = let_in(port, hello(name))
    at = 0
    while True:
        reply = caller.ask(look(name))
        if reply not in (b"", OVER):
            reply = caller.ask(move(at, NODES[name], "seduction"))
        if reply in (b"", OVER):
            return
        if b'"stale"' in reply:
            at = int(reply[6:reply.index(b",")])  # the present configuration, which the denial names
        elif not reply.startswith((b'{"at":%d,"node":' % at, b'{"clause":3,', b'{"clause":4,')):
            wrong.append(f"{name} is answered {reply!r}")
        asked.release()


def send_until_full(caller: Caller, line: bytes) -> None:
    """Sends a line again and again without reading replies, until the host accepts no more bytes, or after 64 MB."""
    caller.socket.setblocking(False)
    sent = 0
    while sent < 64 << 20:
        try:
            sent += caller.socket.send(line * 1000)
        except BlockingIOError:
            break


def ended_while_asked(room: Path) -> None:
    """The teacher's bye ends the host within eight seconds, while students ask, are silent, are within a line, or don't
    read. Those who are silent or within a line are answered `over`, and nobody can connect afterwards."""
    lab, journal = lab_of(room, 16), room / "journal"
    with Host(lab, 0, 0, journal) as host:
        teacher, _ = let_in(host.desk, hello("tess"))
        asked, wrong = threading.Semaphore(0), list[str]()
        students = [threading.Thread(target=ask_until_over, args=[host.port, name, asked, wrong]) for name in [*NODES] * 2]
        for student in students:
            student.start()
        silent, half, deaf = (let_in(host.port, hello("cyd"))[0] for _ in range(3))
        half.send(b'{"do":')
        send_until_full(deaf, look("cyd"))
        for _ in range(20):
            for _ in range(20):  # until the students have made twenty more looks and moves
                asked.acquire()
            teacher.ask(CLOSE)
            teacher.ask(fault_at(1))
        said, polls = [teacher.ask(BYE), teacher.line()], 0
        while host.is_running() and polls < 160:
            time.sleep(0.05)
            polls += 1
        ended = host.end()
        for student in students:
            student.join()
        said += [silent.line(), half.line(), silent.line(), half.line()]
        if wrong or said != [BID, b"", OVER, OVER, b"", b""]:
            fail(f"host: other replies at the end: {wrong}, {said}")
        deaf.close()
        for port in (host.port, host.desk):
            try:
                Caller(port)
                fail("host: somebody is let in after the end")
            except ConnectionRefusedError:
                pass
    events = len(journal.read_bytes().splitlines())
    told = audit(lab, journal, events)
    number = told.split(b"configuration ")[1].split(b",")[0]
    if ended != Ended(0, b"done: %d events, configuration %s\n" % (events, number), b"") or events < 21:  # twenty faults and a move
        fail(f"host: another end while students ask: {ended}, {events} events")
    if polls == 160:
        fail("host: its end while students ask takes more than eight seconds")


def ports(room: Path) -> None:
    """If a port is taken, or both ports are the same, nothing is served, and the journal is unchanged. If a running
    host uses the journal, a second host is refused."""
    lab, journal, kept = lab_of(room, 4), room / "journal", b"1 0 close\n"
    with socket.create_server(("127.0.0.1", 0)) as taken, socket.create_server(("127.0.0.1", 0)) as free:
        used, port = taken.getsockname()[1], free.getsockname()[1]
        free.close()
        for one, two in [(used, 0), (0, used), (port, port), (used, used)]:
            for before in (None, kept):
                journal.unlink(missing_ok=True)
                if before:
                    journal.write_bytes(before)
                with Host(lab, one, two, journal) as host:
                    ended = None if host.listens else host.end()
                if ended != NOT_LISTENING:
                    fail(f"host: at the ports {one} and {two} it ends with {ended}")
                left = [file.read_bytes() for file in room.glob("journal*")]
                if left != ([before] if before else []):
                    fail("host: if it can't listen at a port, the journal isn't as it was")
    # If two hosts use one journal, the second changes nothing.
    with Host(lab, 0, 0, journal) as first:
        student, _ = let_in(first.port, hello("ana"))
        student.ask(move(0, 1, "seduction"))
        with Host(lab, 0, 0, journal) as second:
            if second.listens or second.end() != Ended(4, b"", b"journal fault\n"):
                fail("host: two write one journal")
        if first.dismiss(let_in(first.desk, hello("tess"))[0]).status != 0:
            fail("host: another end of the first of two on one journal")
    if (room / "journal.~1~").read_bytes() != kept:
        fail("host: the older content of the journal isn't kept")
    audit(lab, journal, 1)


def listeners(port: int) -> set[str]:
    """Returns the addresses of the listeners on a port, as the system spells them."""
    # In a row of these tables the second word is the local address and port, and the fourth one is 0A for a listener.
    rows = [line.split() for name in ("tcp", "tcp6") for line in Path(f"/proc/net/{name}").read_text(encoding="ascii").splitlines()[1:]]
    return {address for row in rows for address, _, number in [row[1].partition(":")] if row[3] == "0A" and int(number, 16) == port}


def own_address() -> str:
    """Returns the address that this machine would use to reach others, or 127.0.0.2 if it has no way to others."""
    with socket.socket(socket.AF_INET, socket.SOCK_DGRAM) as it:
        try:
            it.connect(("192.0.2.1", 9))  # For a datagram socket this only chooses the address; nothing is sent.
        except OSError:
            return "127.0.0.2"
        address: str = it.getsockname()[0]
        return address


def on_this_machine(room: Path) -> None:
    """A host listens only on the loopback address, and can't be reached by another one."""
    with Host(lab_of(room, 4), 0, 0) as host:
        for port in (host.port, host.desk):
            if (found := listeners(port)) != {"0100007F"}:  # 127.0.0.1, the lowest byte first
                fail(f"host: it listens at {found}")
            for address in ("127.0.0.2", own_address()):
                try:
                    socket.create_connection((address, port), 10).close()
                except OSError:
                    continue
                fail(f"host: it is reached by {address}")
        if host.dismiss(let_in(host.desk, hello("tess"))[0]) != NO_EVENTS:
            fail("host: another end of a host that others wanted to reach")


def one_device(room: Path) -> None:
    """A device, here /dev/null, may be the journal and standard error at the same time."""
    lab = lab_of(room, 4)
    with Host(lab, 0, 0, "/dev/null", before=["bash", "-c", 'exec "$@" 2> /dev/null', "bash"]) as host:
        if not host.listens:
            fail(f"host: with journal and errors in one device it ends with {host.end()}")
        if host.dismiss(let_in(host.desk, hello("tess"))[0]) != NO_EVENTS:
            fail("host: another end with journal and errors in one device")


def few_descriptors(room: Path) -> None:
    """If the host may open only 24 or 12 files, thirty clients that connect at once are all served in the end, although
    at first further connections occupy all its files."""
    for descriptors in (24, 12):
        lab, journal = lab_of(room, 16), room / f"{descriptors}.journal"
        limited = ["bash", "-c", f'ulimit -n {descriptors} && exec "$@"', "bash"]
        with Host(lab, 0, 0, journal, before=limited) as host:
            served: list[tuple[bytes, ...]] = []
            teacher, _ = let_in(host.desk, hello("tess"))
            together = threading.Barrier(30)

            def client(name: str) -> None:
                """Connects as a student again and again, until a look and a bye on one connection are answered and the
                connection ends."""
                together.wait()
                replies: tuple[bytes, ...] = ()
                while replies[2:] != (BID, b""):  # If a name has more than four seats, its newest connection is closed for a newcomer.
                    caller, reply = let_in(host.port, hello(name))
                    replies = reply, caller.ask(look(name)), caller.ask(BYE), caller.line()
                    caller.close()
                served.append(replies)

            clients = [threading.Thread(target=client, args=[list(NODES)[at % 3]]) for at in range(30)]
            held = [connect(host.port) for _ in range(descriptors)]  # The host has no descriptor or no seat for most of these.
            for each in clients:
                each.start()
            for caller in held:
                caller.close()
            for each in clients:
                each.join()
            script = room / "clients.script"
            script.write_bytes(b"".join(b"1 " + line for name in NODES for line in (hello(name), look(name), BYE)))
            rules = [line[2:] for line in good(["script", str(lab), str(script)]).splitlines(keepends=True)]
            wanted = [(*rules[at:at + 3], b"") for at in range(0, 9, 3)] * 10  # ten clients of each name get its three replies, and the end
            if sorted(served) != sorted(wanted):
                fail(f"host: of thirty clients over {descriptors} files {len(served)} are served, or otherwise")
            if host.dismiss(teacher) != NO_EVENTS:
                fail(f"host: another end over {descriptors} files")
        audit(lab, journal, 0)


def words(room: Path) -> None:
    """A host that gets wrong arguments, a lab or a file that it can't use, ends with the error and status for them."""
    lab = lab_of(room, 4)
    bad = room / "bad.toml"
    bad.write_text(lab.read_text(encoding="utf-8").replace('owner = "ana"', 'owner = "ann"'), encoding="utf-8")
    wanted: list[tuple[list[object], int, bytes]] = [
        ([lab, 0], 1, b"command line: not understood\n"), ([lab, 0, 70000], 1, b"command line: not understood\n"),
        ([lab, "x", 0], 1, b"command line: not understood\n"), ([bad, 0, 0], 2, b"lab: node 0: no such owner\n"),
        ([room / "none", 0, 0], 4, b"read fault: lab\n"), ([lab, 0, 0, room], 4, b"journal fault\n"),
        ([lab, 0, 0, lab], 4, b"journal fault\n"),
    ]
    for given, status, line in wanted:
        with Host(*given) as host:
            if host.listens or host.end() != Ended(status, b"", line):
                fail(f"host: with the words {given} it ends otherwise")


TESTS: list[Test] = [
    connect_and_close, deadlines, one_after_another, ended_while_asked, few_descriptors, through_one_seat,
    killed_in_a_line, says_busy, two_of_one_name, raced, byes_that_end_nothing, ports, words,
    on_this_machine, one_device,
]


if __name__ == "__main__":
    try_all("a host whose connections come and go", TESTS)
