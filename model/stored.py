"""Compares the stored outputs of scripts, in `examples` and `tests/scripts`, with the model's, and writes those that differ."""
import difflib
import sys
from pathlib import Path

from model.lab import read_lab
from model.run import play

TOP = Path(__file__).resolve().parent.parent
FOLDERS = ("examples", "tests/scripts")


def lab_of(script: Path) -> Path:
    """Returns the lab's file for a script: NAME.toml for NAME.script and NAME-run.script, or else that of the built-in lab."""
    lab = script.with_name(script.stem.removesuffix("-run") + ".toml")
    return lab if lab.exists() else TOP / "examples/built-in.toml"


def renew(stored: Path, content: bytes) -> int:
    """Compares the file `stored` with the model's present output `content`. Returns 0 if they are equal. Otherwise writes the
    output to a new file, whose name ends with `.new`, prints the difference, and returns 1. Never changes `stored` itself."""
    new = stored.with_name(f"{stored.name}.new")
    new.unlink(missing_ok=True)
    old = stored.read_bytes() if stored.exists() else b""
    if content == old and stored.exists():
        return 0
    new.write_bytes(content)
    before, after = (it.decode("ascii", "replace").splitlines(keepends=True) for it in (old, content))
    sys.stdout.writelines(difflib.unified_diff(before, after, str(stored.relative_to(TOP)), str(new.relative_to(TOP))))
    return 1


def write_all() -> int:
    """Plays all scripts, and compares their outputs with the stored ones (`renew`). Returns the exit status: 1 if an output differs or a script is wrong."""
    scripts = [script for folder in FOLDERS for script in sorted((TOP / folder).glob("*.script"))]
    others = wrong = 0
    for script in scripts:
        run, bad_line = play(read_lab(lab_of(script).read_bytes()), script.read_bytes())
        if bad_line is not None:
            wrong += 1
            print(f"{script.relative_to(TOP)}: line {bad_line} isn't a line of a script")
        others += renew(script.with_suffix(".out"), run.printed())
        # A journal is stored for some scripts only.
        if script.with_suffix(".journal").exists():
            others += renew(script.with_suffix(".journal"), run.written())
    print(f"{len(scripts)} scripts were played; {others} outputs differ from the stored files" + ". The new outputs are in FILE.new" * bool(others))
    return 1 if others or wrong else 0
