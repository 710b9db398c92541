"""Prints what the proved program prints for the same words, or an error line and these:

    python3 -B -m model check LAB
    python3 -B -m model script LAB SCRIPT [JOURNAL]
    python3 -B -m model audit LAB JOURNAL
    python3 -B -m model tally LAB JOURNAL [RECORD]
    python3 -B -m model verify LAB JOURNAL RECORD
    python3 -B -m model --all      compares the stored outputs of all scripts with the model's
"""
import sys

from model.stored import write_all
from model.words import run_command


def main(words: list[str]) -> int:
    """Runs the command that the arguments name, prints its output, and returns the exit status. Also prints the usage if they name none."""
    if words == ["--all"]:
        return write_all()
    found = run_command(words)
    sys.stdout.buffer.write(found.out)
    sys.stdout.flush()
    sys.stderr.buffer.write(found.error)
    if found.status == 1:
        print(__doc__, file=sys.stderr)
    return found.status


if __name__ == "__main__":
    sys.exit(main(sys.argv[1:]))
