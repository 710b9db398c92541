"""Tests of the command `answer`, which answers the lines of a script on standard input as they come: the replies, and
how the command ends.

    python3 -B -m tests.program.answering
"""
import json
import subprocess
import threading
from pathlib import Path

from tests.common.hosting import HOST
from tests.common.preload import LIMIT, TOP, Ended, built_in, fail, in_room
from tests.program.lines import ROWS

HELLO = b'1 {"do":"hello","name":"tess","key":"chalk"}\n'
FAULTS = 5000  # the limit of events of a lab that reaches it


def scripts(room: Path) -> list[tuple[Path, Path]]:
    """Returns the paths of all scripts in the folders `examples` and `tests/scripts`, each with the path of its lab.
    The lab is the file with the script's name without `-run`, or the built-in lab if there is no such file. The
    expected output of a script is the file beside it with the ending `.out`."""
    plain = built_in(room)
    found = []
    for script in sorted([*(TOP / "examples").glob("*.script"), *(TOP / "tests/scripts").glob("*.script")]):
        lab = script.with_name(f"{script.stem.removesuffix('-run')}.toml")
        found.append((script, lab if lab.exists() else plain))
    return found


def line_by_line(room: Path) -> int:
    """Runs all scripts, and checks that each reply comes before the next line is sent. Also checks that the replies are
    those in the script's expected output. Returns the number of lines."""
    lines = 0
    for script, lab in scripts(room):
        wanted = script.with_suffix(".out").read_bytes().splitlines(keepends=True)
        asked = script.read_bytes().splitlines(keepends=True)
        program = subprocess.Popen([HOST, "answer", lab], stdin=subprocess.PIPE, stdout=subprocess.PIPE, stderr=subprocess.PIPE)
        assert program.stdin is not None and program.stdout is not None and program.stderr is not None
        # If a reply doesn't come, the program is killed, so that the read ends.
        late = threading.Timer(LIMIT, program.kill)
        late.daemon = True
        late.start()
        for line, reply in zip(asked, wanted):
            try:
                program.stdin.write(line)
                program.stdin.flush()
            except BrokenPipeError:
                fail(f"{script.name}: it has ended: {program.stderr.read()!r}")
            found = program.stdout.readline()
            if found != reply:
                fail(f"{script.name}: {found!r}, not {reply!r}, to {line!r}")
            lines += 1
        out, error = program.communicate()
        late.cancel()
        # A script with fewer replies than lines has a bad line, at which the program ends with an error.
        if (program.returncode, out, error) != (0, b"", b"") and len(wanted) == len(asked):
            fail(f"{script.name}: it ends with {program.returncode}, {out!r}, {error!r}")
    return lines


def answer_script(words: list[str], given: bytes) -> Ended:
    """Runs the program with these arguments and the script `given` on its standard input. Returns its status and
    output."""
    done = subprocess.run([HOST, *words], input=given, capture_output=True, timeout=LIMIT, check=False)
    return Ended(done.returncode, done.stdout, done.stderr)


def check_ends(room: Path) -> int:
    """Checks how `answer` ends after a wrong line, with arguments or a lab that it can't use, and on a full disk. Also
    checks that an event beyond the lab's limit is refused. Returns the number of calls."""
    lab = str(built_in(room))
    for script, out, line in ROWS:  # `line` is the number of the script's wrong line, or None
        wanted = Ended(2 if line else 0, out.encode(), f"script: line {line}: bad line\n".encode() if line else b"")
        found = answer_script(["answer", lab], script.encode())
        if found != wanted:
            fail(f"{found}, not {wanted}: {script[:60]!r}")
    words = [
        (["answer"], Ended(1, b"", b"command line: not understood\n")),
        (["answer", lab, lab], Ended(1, b"", b"command line: not understood\n")),
        (["answer", "-"], Ended(1, b"", b"command line: not understood\n")),
        (["answer", str(room / "none.toml")], Ended(4, b"", b"read fault: lab\n")),
        (["answer", "/dev/null"], Ended(2, b"", b"lab: events is missing\n")),
    ]
    for given, wanted in words:
        found = answer_script(given, HELLO)
        if found != wanted:
            fail(f"{found}, not {wanted}: {given}")
    with open("/dev/full", "wb") as full:
        done = subprocess.run([HOST, "answer", lab], input=HELLO, stdout=full, stderr=subprocess.PIPE, timeout=LIMIT, check=False)
    if (done.returncode, done.stderr) != (4, b"write fault\n"):
        fail(f"a full disk is reported as {done.returncode}, {done.stderr!r}")
    large = room / "large.toml"
    large.write_text(Path(lab).read_text(encoding="utf-8").replace("events = 100", f"events = {FAULTS}"), encoding="utf-8")
    found = answer_script(["answer", str(large)], HELLO + b'1 {"do":"fault","node":1,"p":2,"m":true}\n' * (FAULTS + 1))
    *_, last, over = found.out.splitlines()
    if json.loads(last[2:])["place"] != FAULTS or over != b'1 {"refuse":"full"}':
        fail(f"the last of {FAULTS} events is answered by {last!r}, the next by {over!r}")
    return len(ROWS) + len(words) + 2


def work(room: Path) -> str:
    """Checks replies that are read line by line, and the ends of scripts. Returns a line with the number of both."""
    return f"answering: {line_by_line(room)} lines as they came, {check_ends(room)} ends as wanted"


if __name__ == "__main__":
    in_room(work)
