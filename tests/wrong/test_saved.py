"""Tests that `tools/wrong` passes the checked modules of a crate's library on to the checks of the crate's wrong
bodies. When the prover has checked a crate, the library has a file with the checked modules, and a list of them. The
function `hand_on` writes each module as a file into the folder in which the prover saves modules. So a check needn't
check these modules again.

    python3 -B -m unittest tests.wrong.test_saved      a minute of processor time; needs the toolchain and no library
"""
from __future__ import annotations

import json
import re
import shutil
import tempfile
import unittest
from pathlib import Path

from tools.wrong.checks import Running, try_round
from tools.wrong.edits import Round, apply_edit
from tools.wrong.judging import judge
from tools.wrong.libraries import tree_at
from tools.wrong.outputs import read_output
from tools.wrong.saved import find_name, hand_on
from tests.wrong.test_wrong import CRATE, THERE, TOP

# The line in which the prover says how many modules it has loaded, and how many it has checked itself.
LOADED = re.compile(rf"(?m)^crate {CRATE}: modules loaded=(\d+) checked=(\d+)$")


def write_library(library: Path, modules: dict[str, bytes]) -> None:
    """Writes the file and the list of a library with these modules. After them come the bytes of a checksum. Each line
    of the list has a name, the offset of its bytes in the file, and their number."""
    held, lines = b"!<arch>\n", ""
    for name, text in (*modules.items(), ("sum/all", b"of all")):
        lines += json.dumps([name, len(held), len(text)]) + "\n"
        held += text + b"\n"
    (library / "toolchain").mkdir(parents=True)
    (library / "toolchain/checked.a").write_bytes(held)
    (library / "toolchain/checked.json").write_text(lines, encoding="utf-8")


class HandingOn(unittest.TestCase):
    """Libraries that the tests write."""

    def setUp(self) -> None:
        """Names a library, and a folder for its modules, in a temporary folder. Neither of them exists yet."""
        room = tempfile.TemporaryDirectory()
        self.addCleanup(room.cleanup)
        self.library, self.to = Path(room.name) / "it.rlib", Path(room.name) / "kept/saved"

    def test_each_module_becomes_a_file_but_not_the_checksum(self) -> None:
        write_library(self.library, {"It": b"one", "It-proofs.f": b"\0two\n"})
        hand_on(self.library, self.to)
        self.assertEqual({it.name: it.read_bytes() for it in self.to.iterdir()}, {"It.oantt": b"one", "It-proofs.f.oantt": b"\0two\n"})

    def test_a_module_that_a_check_has_saved_is_replaced_by_that_of_the_library(self) -> None:
        """Modules that the library lacks stay."""
        write_library(self.library, {"It": b"one"})
        hand_on(self.library, self.to)
        (self.to / "It.oantt").write_bytes(b"two")
        (self.to / "More.oantt").write_bytes(b"more")
        hand_on(self.library, self.to)
        self.assertEqual({it.name: it.read_bytes() for it in self.to.iterdir()}, {"It.oantt": b"one", "More.oantt": b"more"})

    def test_a_library_without_modules_leads_to_no_file(self) -> None:
        (self.library / "toolchain").mkdir(parents=True)
        hand_on(self.library, self.to)
        self.assertFalse(self.to.exists())

    def test_a_list_that_can_not_be_read_to_its_end_leads_to_no_file(self) -> None:
        for line in ("no list", '["It", 1]', '["It", "1", "2"]', "7", '["It", -1, 2]', '["It", 8, 1000]'):
            shutil.rmtree(self.library, ignore_errors=True)
            write_library(self.library, {"It": b"one"})
            with (self.library / "toolchain/checked.json").open("a", encoding="utf-8") as it:
                it.write(f"{line}\n")
            hand_on(self.library, self.to)
            self.assertFalse(self.to.exists(), line)


class TakingUp(unittest.TestCase):
    """The real prover, with a copy of the smallest crate that has wrong bodies."""

    def test_a_check_loads_the_modules_of_the_library_and_still_refuses_a_wrong_body(self) -> None:
        """The first check, of the unchanged crate, checks the modules and saves them. A library is made of what it
        saved. The second check, of a wrong body, gets the modules of this library, and loads more of them than it
        checks."""
        with tempfile.TemporaryDirectory() as room:
            top, folder = Path(room) / "top", Path(room) / "top/crates" / CRATE
            for part in ("src", "proofs"):
                shutil.copytree(TOP / "crates" / CRATE / part, folder / part)
            (top / "crates.txt").write_text(f"{CRATE}:\n", encoding="utf-8")
            tree = tree_at(top)
            name = find_name(tree)
            texts: list[dict[str, str]] = [{}, apply_edit(THERE, {}, folder)]
            for number, text in enumerate(texts):
                copy = Path(room) / str(number)
                copy.mkdir()
                if number:
                    hand_on(tree.library(CRATE), copy / "kept" / name)
                ended = try_round(tree, CRATE, Round([THERE], text), copy, Running())
                found = LOADED.search(ended.output)
                assert found is not None, ended.output
                self.assertEqual(int(found[1]) > int(found[2]), number == 1, found[0])
                self.assertEqual(bool(judge([THERE], ended.status, read_output(CRATE, ended.output)).of_edit), number == 0)
                if not number:
                    saved = {it.stem: it.read_bytes() for it in (copy / "kept" / name).glob("Rattle-*.oantt")}
                    write_library(tree.library(CRATE), saved)


if __name__ == "__main__":
    unittest.main()
