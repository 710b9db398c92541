"""Prints which functions of this program use the instructions of a line, with valgrind's callgrind.

    python3 -B -m bench.parts [ROW..]

Each figure is the instructions of a function itself per line of the row, as in `bench.count`: from the difference
of two runs of different lengths. With arguments, only the rows whose names contain one of them are printed.
"""
import re
import subprocess
import sys
import tempfile
from pathlib import Path

from bench.common import Words, require_valgrind, refuse
from bench.count import ROWS, Counter, Row

MOST = 12  # functions of a row that are printed
# A line of callgrind_annotate: the count, perhaps a percentage, `FILE:FUNCTION`, and perhaps the program in brackets.
FOUND = re.compile(r"^\s*([\d,]+)\s+(?:\(\s*[\d.]+%\)\s+)?\S*?:(\S.*?)(?: \[[^]]*\])?$", re.MULTILINE)


def by_function(words: Words, stdin: Path, room: Path) -> dict[str, int]:
    """Returns the number of instructions of each function in the run of the command line `words`, with a file as
    standard input. Instructions of the functions that it calls don't count. `room` is a folder for callgrind's output.
    Raises `CalledProcessError` if a command fails. Exits with an error line if no function is found."""
    kept = room / "counts"
    call = ["valgrind", "--tool=callgrind", f"--callgrind-out-file={kept}", *words]
    with stdin.open("rb") as lines:
        subprocess.run(call, stdin=lines, stdout=subprocess.DEVNULL, stderr=subprocess.DEVNULL, check=True)
    annotated = subprocess.run(["callgrind_annotate", "--threshold=100", kept], capture_output=True, encoding="utf-8", check=True)
    taken: dict[str, int] = {}
    for count, name in FOUND.findall(annotated.stdout):
        taken[name] = taken.get(name, 0) + int(count.replace(",", ""))
    return taken or refuse("callgrind_annotate printed no function")


def parts_of(row: Row, counter: Counter, room: Path) -> dict[str, float]:
    """Returns the instructions of each function of this program per line of a row, by the function's name. They come
    from the difference of a longer and a shorter run. `counter` writes the row's files, and `room` is a folder for
    callgrind's output. Raises `CalledProcessError` if a command fails."""
    counter.lab.write_text(row.lab(), encoding="ascii")
    less = counter.write(row, row.few)
    before = by_function(counter.command(row, 0), counter.text, room)
    more = counter.write(row, row.many)
    after = by_function(counter.command(row, 0), counter.text, room)
    return {name: row.lines * (count - before.get(name, 0)) / (more - less) for name, count in after.items()}


def main() -> None:
    """Prints the functions of each row, the one with the most instructions first. With arguments, prints only rows
    whose names contain one of them."""
    require_valgrind()
    wanted = sys.argv[1:]
    with tempfile.TemporaryDirectory() as folder:
        counter = Counter(Path(folder))
        for row in ROWS:
            if wanted and not any(word in row.name for word in wanted):
                continue
            parts = parts_of(row, counter, Path(folder))
            print(f"{row.name}: {sum(parts.values()):,.0f}")
            for name in sorted(parts, key=lambda it: -parts[it])[:MOST]:
                print(f"    {parts[name]:,.0f} {re.sub('::<#.*', '', name)}")


if __name__ == "__main__":
    main()
