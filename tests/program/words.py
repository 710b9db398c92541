"""Calls the program with arguments that it doesn't understand and with files that it can't read. Also checks how many
writes an output consists of.

    python3 -B -m tests.program.words
"""
import shutil
import socket
import subprocess
from pathlib import Path

from tests.common.limits import MOST
from tests.common.preload import LIMIT, PROGRAM, TOP, Ended, built_in, fail, in_room

# Arguments in one line each. Two spaces in a row, or one at the beginning or the end, make an empty argument.
NOT_UNDERSTOOD = f"""\
a
help
help check
help script
help help
version
-
--
---
-h
-V
-v
-x
--help
--version
--check
--lab
-- check a
- check a
check
check a b
check a b c
check -
check --
check -- a
check -- -a
check a --
check a -
check -a
check -1
check -h
check --help
check a --help
check a -h
check --version
check -V
check --lab a
check --lab=a
Check a
CHECK a
chec a
c a
checks a
check=a
audit
audit a
audit a b c
audit a -
script
script a
script a b -
script a b c d
script a -
script - b
script -- a b
script a b --
script a --script b
Script a b
check a script a b
serve
serve a
serve a 1
serve a 1 1 b c
serve a 1 1 -
serve a -1 1
serve a 0 1
serve a 65536 1
serve a 65537 1
serve a 99999999999999999999 1
serve a 01 1
serve a +1 1
serve a 1. 1
serve a x 1
serve a  1 1
serve a 1 0
serve a 1 {MOST['sessions'] + 1}
serve a 1 256
serve a 1 257
serve a 1 01
serve a 1 +1
serve a 1 x
Serve a 1 1
"""
WITH_EMPTY_WORDS = [" ", "serve a 1 "]
SIZE = b"ok: 3 nodes, 2 links, 3 students\n"
NO_LAB = Ended(2, b"", b"lab: events is missing\n")
UNREAD_LAB = Ended(4, b"", b"read fault: lab\n")
UNREAD_SCRIPT = Ended(4, b"", b"read fault: script\n")
UNREAD_JOURNAL = Ended(4, b"", b"read fault: journal\n")
BROKEN_JOURNAL = Ended(4, b"", b"journal fault\n")
# Command lines, and how each ends. In their folder the files `a`, `check`, `help`, `version` and `7000` are the
# built-in lab, and `b` is a script. `long` is a script whose line 300 is no line of a script, `hash` has one byte, and
# `empty` none. The end shows which command was understood, and which words as files.
TAKEN = [
    ("check a", Ended(0, SIZE, b"")),
    ("check ./a", Ended(0, SIZE, b"")),
    ("check check", Ended(0, SIZE, b"")),
    ("check help", Ended(0, SIZE, b"")),
    ("check ", UNREAD_LAB),
    ("check .", UNREAD_LAB),
    ("check no-such-folder/no-such-file", UNREAD_LAB),
    ("check hash", NO_LAB),
    ("check empty", NO_LAB),
    ("script a b", Ended(0, b'1 {"ok":"bye"}\n', b"")),
    ("script a b c", Ended(0, b'1 {"ok":"bye"}\n', b"")),
    ("script a b ", BROKEN_JOURNAL),
    ("script a empty", Ended(0, b"", b"")),
    ("script a a", Ended(2, b"", b"script: line 1: bad line\n")),
    ("script a hash", Ended(0, b"", b"")),
    ("script a long", Ended(2, b'1 {"ok":"bye"}\n' * 299, b"script: line 300: bad line\n")),
    ("script help version", Ended(2, b"", b"script: line 1: bad line\n")),
    ("script a ", UNREAD_SCRIPT),
    ("script a .", UNREAD_SCRIPT),
    ("script a no-such-folder/no-such-file", UNREAD_SCRIPT),
    ("script b b", Ended(2, b"", b"lab: not a TOML document\n")),
    ("audit a c", Ended(0, b"ok: 0 events, configuration 0, not stable\n", b"")),
    ("audit a ", UNREAD_JOURNAL),
    ("serve  1 1", UNREAD_LAB),
    ("serve a 65535 5", Ended(2, b"", b"serve: more connections than sessions\n")),
    (f"serve a 65535 {MOST['sessions']} b", Ended(2, b"", b"serve: more connections than sessions\n")),
    ("serve 7000 7000 4 ", BROKEN_JOURNAL),
    ("serve a 1 1 .", BROKEN_JOURNAL),
]


def run_line(line: str, folder: Path) -> Ended:
    """Runs the program in a folder with the words of a line as its arguments. Returns its status and output."""
    words: list[str | Path] = [PROGRAM.resolve(), *line.split(" ")]
    done = subprocess.run(
        words, stdin=subprocess.DEVNULL, capture_output=True, cwd=folder, timeout=LIMIT, check=False
    )
    return Ended(done.returncode, done.stdout, done.stderr)


def wants(line: str, folder: Path, wanted: Ended) -> None:
    """Checks the status and output of a command line that is run in a folder."""
    ended = run_line(line, folder)
    if ended != wanted:
        fail(f"{ended}, not {wanted}: {line!r}")


def check_lines(folder: Path) -> int:
    """Makes the files in a folder, and checks the command lines that aren't understood, and those in TAKEN. Returns
    their number."""
    for name in ("a", "check", "help", "version", "7000"):
        shutil.copy(built_in(folder), folder / name)
    (folder / "b").write_text('1 {"do":"bye"}\n', encoding="ascii")
    (folder / "long").write_text('1 {"do":"bye"}\n' * 299 + "no line\n", encoding="ascii")
    (folder / "hash").write_text("#", encoding="ascii")
    (folder / "empty").write_text("", encoding="ascii")
    lines = NOT_UNDERSTOOD.splitlines() + WITH_EMPTY_WORDS
    for line in lines:
        wants(line, folder, Ended(1, b"", b"command line: not understood\n"))
    for line, wanted in TAKEN:
        wants(line, folder, wanted)
    return len(lines) + len(TAKEN)


def writes(words: list[str], given: bytes) -> list[bytes]:
    """Runs a command with this input, and returns the bytes of each write to its standard output, a socket that keeps
    them apart."""
    ours, theirs = socket.socketpair(socket.AF_UNIX, socket.SOCK_SEQPACKET)
    with ours, theirs:
        ours.settimeout(LIMIT)
        asked: list[str | Path] = [PROGRAM, *words]
        script = subprocess.Popen(asked, stdin=subprocess.PIPE, stdout=theirs.fileno(), stderr=subprocess.DEVNULL)
        theirs.close()
        assert script.stdin is not None
        script.stdin.write(given)
        script.stdin.close()
        found = []
        while packet := ours.recv(1 << 20):
            found.append(packet)
        script.wait(LIMIT)
        return found


def in_one_write(folder: Path) -> int:
    """Checks that the replies to lines of one read are sent by one write, also before a bad line. A read has at most
    4096 bytes, so a script of byes is read 273 lines at a time. Returns the number of calls."""
    bye, left = b'1 {"do":"bye"}\n', b'1 {"ok":"bye"}\n'
    look, told = ((TOP / f"examples/first-look.{end}").read_bytes() for end in ("script", "out"))
    bad = bye + b'5 {"do":"bye"}\n'
    many = folder / "many.script"
    many.write_bytes(bye * 1000)
    calls: list[tuple[list[str], bytes, list[bytes]]] = [
        ([], b"", []),
        ([], look, [told]),
        ([], bad, [left]),
        (["check", str(built_in(folder))], b"", [SIZE]),
        (["script", str(built_in(folder)), str(many)], b"", [left * 273, left * 273, left * 273, left * 181]),
    ]
    for words, given, wanted in calls:
        found = writes(words, given)
        if found != wanted:
            fail(f"{len(found)} writes, not {len(wanted)} or not those: {words}: {found[:1]!r:.200}")
    return len(calls)


def work(room: Path) -> str:
    """Checks all command lines, and that outputs are single writes. Returns a line with the numbers of both."""
    return f"words: {check_lines(room)} as wanted; outputs by write: {in_one_write(room)}"


if __name__ == "__main__":
    in_room(work)
