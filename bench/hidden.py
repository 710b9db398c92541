"""Compares the instructions of requests that get the same denial, with valgrind's callgrind.

    python3 -B -m bench.hidden

The program answers scripts of a greeting and 2,000 equal lines with its built-in lab. A figure is the number of
instructions per line: the script's count minus that of the greeting alone, divided by 2,000. Of each pair of
lines, one names something that isn't shown and the other something that doesn't exist. Both lines have the same
length, and their replies have to be the same.
"""
import tempfile
from pathlib import Path

from bench.common import PROGRAM, count_instructions, output_of, require_valgrind, refuse, stripped

LINES = 2_000
ANA = '1 {"do":"hello","key":"a-key","name":"ana"}\n'
# The word of a request, the lines before, and two such requests that are denied: one names something that isn't shown, and one something that doesn't exist.
PAIRS: list[tuple[str, str, str, str]] = [
    ("see", ANA, '1 {"do":"see","node":3}\n', '1 {"do":"see","node":9}\n'),
    ("look", ANA, '1 {"do":"look","node":3}\n', '1 {"do":"look","node":9}\n'),
    (
        "move",
        ANA,
        '1 {"at":0,"do":"move","node":3,"rule":"update"}\n',
        '1 {"at":0,"do":"move","node":9,"rule":"update"}\n',
    ),
    ("hello", "", '2 {"do":"hello","key":"z-key","name":"ana"}\n', '2 {"do":"hello","key":"z-key","name":"zoe"}\n'),
]


def count(program: Path, before: str, line: str, script: Path) -> tuple[float, bytes]:
    """Returns the number of instructions of a program for each `line` of a script, and the reply to it. `before` has
    the lines at the beginning of the script, and the file `script` is overwritten. Exits if the replies differ. Raises
    `CalledProcessError` if the program fails."""
    script.write_text(before, encoding="ascii")
    begun = count_instructions([program], script)
    script.write_text(before + line * LINES, encoding="ascii")
    told = set(output_of([program], script).splitlines()[-LINES:])
    if len(told) != 1:
        refuse(f"equal lines got different replies: {told}")
    return (count_instructions([program], script) - begun) / LINES, told.pop()


def main() -> None:
    """Prints the instructions of both lines of each pair, and their difference. Exits with an error line if their
    replies differ."""
    require_valgrind()
    with tempfile.TemporaryDirectory() as folder:
        program, script = stripped(PROGRAM, Path(folder, "program")), Path(folder, "script")
        for word, before, hidden, missing in PAIRS:
            at_hidden, denied = count(program, before, hidden, script)
            at_missing, other = count(program, before, missing, script)
            if denied != other:
                refuse(f"{word}: {denied!r}, but {other!r}")
            print(f"{word}: {at_hidden:.2f} and {at_missing:.2f}, {at_hidden - at_missing:+.2f}")


if __name__ == "__main__":
    main()
