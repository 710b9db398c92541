"""Compares the time for 40,000 lines through a pipe with that for the same lines in a script's file.

    python3 -B -m bench.pipe

Both are timed 41 times in turn, from the call to the program's end, and the medians are printed. The replies have
to be the same.
"""
import statistics
import subprocess
import tempfile
import time
from pathlib import Path

from bench import inputs
from bench.common import PROGRAM, built, built_in, refuse

LINES = 40_000
ROUNDS = 41


def time_file(lab: Path, script: Path, replies: Path) -> float:
    """Returns how many seconds the program takes for a script that it reads from a file, with the lab in the file
    `lab`. Writes the replies into the file `replies`."""
    with replies.open("wb") as out:
        start = time.perf_counter()
        subprocess.run([PROGRAM, "script", lab, script], stdout=out, check=True)
        return time.perf_counter() - start


def time_pipe(script: Path, replies: Path) -> float:
    """Returns how many seconds the program takes for a script that it gets through a pipe, with its built-in lab.
    Writes the replies into the file `replies`."""
    with replies.open("wb") as out:
        start = time.perf_counter()
        with subprocess.Popen(["cat", script], stdout=subprocess.PIPE) as feeder:
            subprocess.run([PROGRAM], stdin=feeder.stdout, stdout=out, check=True)
            return time.perf_counter() - start


def main() -> None:
    """Times both ways in turn, and prints the medians and their ratio. Exits with an error line if the replies differ
    or a line isn't granted."""
    built(PROGRAM)
    with tempfile.TemporaryDirectory() as folder:
        lab, script, by_file, by_pipe = (Path(folder, name) for name in ("lab", "script", "file", "pipe"))
        lab.write_text(built_in(), encoding="ascii")
        script.write_text("".join(line + "\n" for line in inputs.sees(LINES - 1)), encoding="ascii")
        files, pipes = [], []
        for _ in range(ROUNDS):
            files.append(time_file(lab, script, by_file))
            pipes.append(time_pipe(script, by_pipe))
            if by_file.read_bytes() != by_pipe.read_bytes():
                refuse("the replies differ")
        count = by_file.read_bytes().count(b'"ok"')
    if count != LINES:
        refuse(f"only {count} of {LINES} lines were granted")
    file, pipe = statistics.median(files), statistics.median(pipes)
    print(f"{LINES} lines: file {file * 1000:.1f} ms, pipe {pipe * 1000:.1f} ms, {pipe / file:.2f}")


if __name__ == "__main__":
    main()
