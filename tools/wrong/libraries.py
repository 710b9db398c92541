"""The crates of a repository, and the prover's command line for one of them. A crate is *below* another one if that
crate uses it, directly or by other crates. The *kit* is the folder of the toolchain."""
from __future__ import annotations

import shutil
from dataclasses import dataclass
from pathlib import Path


class LibraryFault(Exception):
    """Raised if a crate can't be checked here. The text is the reason."""


@dataclass(frozen=True)
class Tree:
    """A copy of the repository: its folder, the kit, the crates with what each uses, and optionally another folder with
    libraries."""

    top: Path
    kit: Path
    uses: dict[str, list[str]]
    libraries: Path | None = None

    def folder(self, crate: str) -> Path:
        """Returns the folder of a crate."""
        return self.top / "crates" / crate

    def has_edits(self, crate: str) -> bool:
        """Returns whether a crate has wrong bodies: edits of its functions that the prover has to refuse."""
        return (self.folder(crate) / "wrong").is_dir()

    def library(self, crate: str) -> Path:
        """Returns the path of the library of a crate, in the folder `libraries` if the tree has one, or that of a
        library of the kit."""
        if crate in self.uses:
            return self.libraries / f"{crate}.rlib" if self.libraries else self.left(crate)
        return self.kit / "rlibs" / f"{crate}.rlib"

    def left(self, crate: str) -> Path:
        """Returns the path at which `rt` leaves the library of a crate."""
        return self.folder(crate) / "out/rlib" / f"{crate}.rlib"

    def below(self, crate: str) -> list[str]:
        """Returns the crates of the repository below a crate, lowest first."""
        found: list[str] = []
        for name in self.uses[crate]:
            if name in self.uses:
                found += [it for it in (*self.below(name), name) if it not in found]
        return found

    def missing(self, crate: str) -> list[str]:
        """Returns the names of the libraries below a crate, of this repository or of the kit, that aren't built."""
        return [it for it in (*self.below(crate), *self.uses[crate]) if not (self.library(it) / "format").is_file()]

    def size(self, crate: str) -> int:
        """Returns the size in bytes of a crate's sources and proofs."""
        folder = self.folder(crate)
        return sum(it.stat().st_size for part in ("src", "proofs") for it in (folder / part).rglob("*.*") if it.is_file())


def kit_of(command: str = "rt") -> Path:
    """Returns the folder of the toolchain to which a command on the path belongs. Raises `LibraryFault` if there is no
    such command."""
    found = shutil.which(command)
    if found is None:
        raise LibraryFault(f"the toolchain's command {command} is not on the path")
    return Path(found).resolve().parent.parent


def parse_uses(text: str) -> dict[str, list[str]]:
    """Returns each crate in the text of `crates.txt` with the crates and libraries that it uses."""
    uses = {}
    for line in text.splitlines():
        names, colon, used = line.partition("#")[0].partition(":")
        if colon:
            uses[names.split()[0]] = used.split()
    return uses


def tree_at(top: Path) -> Tree:
    """Returns the copy of the repository in a folder. Raises `LibraryFault` if the toolchain isn't found."""
    return Tree(top, kit_of(), parse_uses((top / "crates.txt").read_text(encoding="utf-8")))


def check_words(tree: Tree, crate: str, functions: set[str], kept: Path) -> list[str]:
    """Returns the command line by which the prover checks these functions of a crate, or all if there are none. The
    command is to be run in a copy of the crate's folder. The check continues from the proofs that an earlier one saved
    in the folder `kept`."""
    root = "main" if (tree.folder(crate) / "src/main.rt").is_file() else "lib"
    words = [str(tree.kit / "bin/rattle"), "check", "--crate-name", crate, f"src/{root}.rt"]
    for name in ("std", *tree.uses[crate]):
        words += ["--extern", f"{name}={tree.library(name)}"]
    for folder in dict.fromkeys([tree.kit / "rlibs", *(tree.library(it).parent for it in tree.below(crate))]):
        words += ["-L", f"dependency={folder}"]
    words += ["--antt-project", str(tree.kit / "rattle/logic/antt-project.json")]
    words += ["--logic-built", str(tree.kit / "logic_built"), "--incremental", str(kept), "--links", f"{crate}="]
    for function in sorted(functions):
        words += ["--only", f"{crate}::{function}"]
    return [*words, "--jobs", "1"]
