#!/usr/bin/env python3
"""Bots with known faults: faulty.py FAULT WORD.. SLIP. Each is correct except for its fault, which its docstring
describes."""
from __future__ import annotations

import ctypes
import os
import resource
import signal
import socket
import subprocess
import sys
import threading
import time
from collections.abc import Callable
from pathlib import Path

sys.path.append(str(Path(__file__).resolve().parents[3]))
from classroom.client import Client, Closed, Denied, Look, NoSlip, Over, Refused, Slip

FAULT = sys.argv[1]
OWN = Path(sys.argv[-1])
SLIP = Slip.read(OWN)
GIVEN = [bytes.fromhex(word).decode() for word in sys.argv[2:-1]]  # given in hexadecimal digits, so that no command line contains these texts
PAUSE = 0.05
SLEEP = "98765.25"  # an argument of the processes that are left running, by which the tests find them


def ask(me: Client, look: Look) -> bool:
    """Asks for the enabled rule of a look, like a correct bot. Returns whether the move was granted. Raises a denial
    that shows a mistake, that is, any other than `stale` and `chosen`."""
    try:
        me.move(look)
    except Denied as denied:
        if denied.name not in ("stale", "chosen"):
            raise
        return False
    return True


def entered() -> Client:
    """Returns a connection by the slip after its hello. Tries again if all seats are taken."""
    while True:
        try:
            return Client.of(SLIP)
        except Refused as refused:
            if refused.word != "busy":
                raise
            time.sleep(1)


def once(wants: Callable[[Client, Look], None], pause: float = PAUSE) -> None:
    """Looks at the slip's nodes again and again on one connection, with a pause after all nodes. Calls `wants` with
    each look. Ignores the refusal `memory`, and ends only by another error."""
    with entered() as me:
        while True:
            for node in SLIP.nodes:
                try:
                    wants(me, me.look(node))
                except Refused as refused:
                    if refused.word != "memory":
                        raise
            time.sleep(pause)


def loop(wants: Callable[[Client, Look], None], pause: float = PAUSE) -> None:
    """Looks at the slip's nodes again and again until the class is over, and calls `wants` with each look. Connects
    again if a connection ends. Pauses after all nodes."""
    while True:
        try:
            once(wants, pause)
        except Over:
            sys.exit()
        except (Closed, Refused) as lost:
            if isinstance(lost, Refused) and lost.word != "busy":
                raise
            time.sleep(0.5)


def right(me: Client, look: Look) -> None:
    """Does what a correct bot does with a look."""
    if look.rule and not look.chosen:
        ask(me, look)


def never_updates(me: Client, look: Look) -> None:
    """Never asks for an update."""
    if look.rule != "update":
        right(me, look)


def marries_anyone(me: Client, look: Look) -> None:
    """If any rule is enabled at the node, asks for a marriage with the node's first neighbour, whatever the rule is."""
    if look.rule and not look.chosen:
        me.move(look, "marriage", look.near[0].node)


def asks_always(me: Client, look: Look) -> None:
    """Asks for the right move, and then for an update in a configuration that doesn't exist yet, which is denied."""
    right(me, look)
    try:
        me.ask(do="move", node=look.node, at=look.at + 1000, rule="update")
    except Denied:
        pass


def quotes_numbers() -> None:
    """Puts the node's number into quotes in its first thirty lines."""
    with Client.of(SLIP) as me:
        for _ in range(30):
            me._socket.sendall(b'{"do": "look", "node": "%d"}\n' % SLIP.nodes[0])
            me._line()
    loop(right)


def floods(me: Client, look: Look) -> None:
    """Sends a hundred lines at a time without a pause."""
    right(me, look)
    me._socket.sendall(b'{"do":"look","node":%d}\n' % look.node * 100)
    for _ in range(100):
        me._line()


def ignores_faults() -> None:
    """Asks for no more moves when each of its nodes has been granted the update that sets m to true. From then on it
    only looks at its first node."""
    left = set(SLIP.nodes)
    with Client.of(SLIP) as me:
        while left:
            for node in SLIP.nodes:
                look = me.look(node)
                if look.rule and not look.chosen and ask(me, look) and look.rule == "update" and not look.m:
                    left.discard(node)
            time.sleep(PAUSE)
        while True:
            me.look(SLIP.nodes[0])
            time.sleep(PAUSE)


def needs_order(me: Client, look: Look) -> None:
    """Acts as if a grant ended the step: waits for the next configuration before it looks at another node."""
    if look.rule and not look.chosen:
        ask(me, look)
        while me.look(look.node).at == look.at:
            time.sleep(PAUSE)


def hangs() -> None:
    """Says hello, and then nothing."""
    with entered():
        time.sleep(1000)


def sulks() -> None:
    """Plays correctly, but waits for ever after its connection is closed."""
    try:
        once(right)
    except Closed:
        time.sleep(1000)


def writes_binary() -> None:
    """Writes bytes that aren't text."""
    with socket.create_connection(("127.0.0.1", SLIP.port)) as it:
        it.sendall(bytes(range(128, 256)) + b"\n")
        time.sleep(1000)


def never_ends_a_line() -> None:
    """Writes without a newline."""
    with socket.create_connection(("127.0.0.1", SLIP.port)) as it:
        try:
            while True:
                it.sendall(b"x" * 1000)
        except OSError:
            time.sleep(1000)


def forks() -> None:
    """Leaves a program running in its own session, and ends."""
    subprocess.Popen(["sleep", SLEEP], start_new_session=True)
    os._exit(0)


def leaves() -> None:
    """Leaves a program running, and plays correctly."""
    subprocess.Popen(["sleep", SLEEP], start_new_session=True)
    loop(right)


def bombs() -> None:
    """Starts more and more programs, each of which sleeps in its own session."""
    while True:
        subprocess.Popen(["sleep", SLEEP], start_new_session=True)


def eats_memory() -> None:
    """Allocates more and more memory."""
    held: list[bytearray] = []
    while True:
        held.append(bytearray(32 << 20))
        time.sleep(0.01)


def computes() -> None:
    """Uses processor time until the system ends it. The bot lowers its limit to a second, so that this happens soon."""
    resource.setrlimit(resource.RLIMIT_CPU, (1, resource.getrlimit(resource.RLIMIT_CPU)[1]))
    while True:
        pass


def pretends() -> None:
    """Prints what looks like a reply."""
    while True:
        print('{"at":9,"free":[],"ok":"report","open":[],"pairs":[[1,2]],"privileged":[],"stable":true}', flush=True)
        time.sleep(PAUSE)


def swaps_output() -> None:
    """Replaces its output file by a pipe that nobody writes to, and ends."""
    output = Path(os.environ["HOME"]) / "output.txt"
    output.unlink(missing_ok=True)
    os.mkfifo(output)
    os._exit(3)


def halts() -> None:
    """Stops the process that started it, again and again, says nothing, and gives up at last."""
    for _ in range(1000):
        os.kill(os.getppid(), signal.SIGSTOP)
        time.sleep(0.01)
    os._exit(3)


def kills() -> None:
    """Kills the process that started it, its keeper, and leaves programs running that don't have its environment. If
    the keeper survives, ends with status 3. Otherwise becomes such a program itself."""
    for _ in range(3):
        subprocess.Popen(["/bin/sleep", SLEEP], start_new_session=True, env={"HOME": "/"})
    keeper = os.getppid()
    os.kill(keeper, signal.SIGKILL)
    time.sleep(1)
    if os.getppid() == keeper:
        os._exit(3)
    os.execve("/bin/sleep", ["sleep", SLEEP], {"HOME": "/"})


def spoil() -> None:
    """Greets with the slips of others, which are beside its own, and sends what no correct bot would send."""
    while True:
        for slip in OWN.parent.parent.glob("bot-*/bot.slip"):
            try:
                if slip != OWN:
                    with Client.of(Slip.read(slip)) as it:
                        it._socket.sendall(b"nonsense\n" * 3)
                        it._line()
            except (OSError, Closed, Denied, Refused, NoSlip):
                continue
        time.sleep(PAUSE)


def spoils() -> None:
    """Plays, and disturbs other bots."""
    threading.Thread(target=spoil, daemon=True).start()
    loop(right)


def copies() -> None:
    """Looks for the running command of another bot, and runs this command with the slip of this bot. Ends with status 3
    if it finds no other bot for a while."""
    for _ in range(100):
        for each in Path("/proc").glob("[0-9]*"):
            try:
                words = (each / "cmdline").read_bytes().split(b"\0")[:-1]
            except OSError:
                continue
            # A bot's last argument is its slip. The keepers of bots, which aren't bots, are called with `-S`.
            if words and words[-1].endswith(b"/bot.slip") and FAULT.encode() not in words and b"-S" not in words:
                os.execv(words[0], [*words[:-1], os.fsencode(OWN)])
        time.sleep(PAUSE)
    os._exit(3)


def fills() -> None:
    """Writes many megabytes into its folder."""
    for number in range(100):
        try:
            Path(f"filled-{number}").write_bytes(bytes(8 << 20))
        except OSError:
            time.sleep(PAUSE)
    time.sleep(1000)


def hides_memory() -> None:
    """Allocates memory in files without a name."""
    held = []
    for _ in range(100):
        held.append(os.memfd_create("hidden"))
        os.write(held[-1], bytes(8 << 20))
        time.sleep(0.01)
    time.sleep(1000)


def shares_memory() -> None:
    """Allocates shared memory that belongs to no process."""
    libc = ctypes.CDLL(None)
    libc.shmat.restype = ctypes.c_void_p
    for _ in range(100):
        # 0o1600 makes a new segment (IPC_CREAT) that only its owner may read and write.
        place = libc.shmat(libc.shmget(0, ctypes.c_size_t(8 << 20), 0o1600), None, 0)
        ctypes.memset(place, 1, 8 << 20)
        libc.shmdt(ctypes.c_void_p(place))
        time.sleep(0.01)
    time.sleep(1000)


def links() -> None:
    """Replaces its output file by a link to the path in GIVEN, and ends."""
    output = OWN.parent / "output.txt"
    output.unlink(missing_ok=True)
    output.symlink_to(GIVEN[0])
    os._exit(3)


def moves_out() -> None:
    """Replaces its folder by a link to the folder in GIVEN, and ends."""
    OWN.parent.rename(f"{OWN.parent}-moved")
    OWN.parent.symlink_to(GIVEN[0])
    os._exit(3)


def digs() -> None:
    """Makes nested folders, deeper than any path can be, and removes the permissions of the last."""
    for _ in range(3000):
        os.mkdir("deeper")
        os.chdir("deeper")
    os.chmod(".", 0)
    os._exit(3)


def tries(what: Callable[[], object]) -> str:
    """Calls a function. Returns the text `True` if the result is true, and `False` if it isn't or the function raises
    `OSError`."""
    try:
        return str(bool(what()))
    except OSError:
        return "False"


def peeks() -> None:
    """Prints which files it can read and write, and what else it can do, in a line that is its last. GIVEN has a port
    to which it tries to connect, and the paths of the files."""
    found = [f"read {file.name}: {tries(file.read_bytes)}" for file in map(Path, GIVEN[1:])]
    found += [f"write {file.name}: {tries(lambda: os.access(file, os.W_OK))}" for file in map(Path, GIVEN[1:])]
    found += [f"connect: {tries(lambda: socket.create_connection(('127.0.0.1', int(GIVEN[0]))))}"]
    found += [f"unshare: {subprocess.run(['unshare', '-U', 'true'], stderr=subprocess.DEVNULL).returncode == 0}"]
    found += [f"processes: {sum(each.name.isdecimal() for each in Path('/proc').iterdir())}"]
    found += [f"trace: {tries(lambda: Path('/proc/1/environ').read_bytes())}"]
    print(*found, sep="; ", flush=True)
    os._exit(3)


FAULTS = {
    "right": lambda: loop(right),
    "never-updates": lambda: loop(never_updates),
    "marries-anyone": lambda: loop(marries_anyone),
    "asks-always": lambda: loop(asks_always),
    "quotes-numbers": quotes_numbers,
    "floods": lambda: loop(floods, 0),
    "hangs": hangs,
    "ignores-faults": ignores_faults,
    "needs-order": lambda: loop(needs_order),
    "sulks": sulks,
    "binary": writes_binary,
    "never-ends-a-line": never_ends_a_line,
    "forks": forks,
    "leaves": leaves,
    "bombs": bombs,
    "eats-memory": eats_memory,
    "computes": computes,
    "pretends": pretends,
    "swaps-output": swaps_output,
    "halts": halts,
    "kills": kills,
    "spoils": spoils,
    "copies": copies,
    "fills": fills,
    "hides-memory": hides_memory,
    "shares-memory": shares_memory,
    "links": links,
    "moves-out": moves_out,
    "digs": digs,
    "peeks": peeks,
}
FAULTS[FAULT]()
