"""Copies the checked modules in a crate's library into the folder in which the checks of its wrong bodies look for them.

A library contains the modules that were checked for it. A check that starts from such a folder uses the modules that
are up to date, and checks the others. So a function isn't proved again if no edit changes it or a function that it
calls. If a library has no such modules, or the name of the folder isn't known, all modules are checked.
"""
from __future__ import annotations

import json
import shutil
import tempfile
from pathlib import Path

from tools.wrong.checks import Running
from tools.wrong.libraries import Tree, check_words

NOTHING = "nothing"
TEXT = "#![tactic(auto)]\n\n/// Does nothing.\npub fn nothing() {}\n"


def find_name(tree: Tree) -> str:
    """Returns the name of the folder in which this prover saves checked modules, or an empty text if it can't be found
    out. To find the name, runs a check of a small crate at once, without waiting for other checks."""
    with tempfile.TemporaryDirectory(prefix="mml-wrong-") as room:
        alone, kept = Tree(Path(room), tree.kit, {NOTHING: []}), Path(room) / "kept"
        (alone.folder(NOTHING) / "src").mkdir(parents=True)
        (alone.folder(NOTHING) / "src/lib.rt").write_text(TEXT, encoding="utf-8")
        kept.mkdir()
        # With an empty name after `--only`, the prover proves no function.
        Running().run([*check_words(alone, NOTHING, set(), kept), "--only", ""], alone.folder(NOTHING))
        names = [it.name for it in kept.iterdir() if it.is_dir()]
    return names[0] if len(names) == 1 else ""


def hand_on(library: Path, to: Path) -> None:
    """Writes the checked modules that a library contains into the folder `to`, one file each. Leaves no folder if the
    library has none, has them in a form that isn't known, or if they can't be written."""
    listed, modules = (library / "toolchain" / it for it in ("checked.json", "checked.a"))
    if not (listed.is_file() and modules.is_file()):
        return
    to.mkdir(parents=True, exist_ok=True)
    try:
        with listed.open(encoding="utf-8") as lines, modules.open("rb") as all_of_them:
            for line in lines:
                name, begins, size = json.loads(line)
                if "/" in name:  # A name with a slash is that of the total, and not of a module.
                    continue
                all_of_them.seek(begins)
                if (to / f"{name}.oantt").write_bytes(all_of_them.read(size)) != size:
                    raise ValueError(name)
    except (ValueError, TypeError, OSError):  # The file has another form than this prover's, or the disk is full.
        shutil.rmtree(to)
