"""Rounds of wrong bodies that the prover has refused before on this machine.

If all edits of a round were refused at their goals, a file notes it. The file's name is a hash of everything that the
result depends on: the crate's files with the edits, the libraries below the crate, the prover, and this tool. So a
change of one of these makes another name, and the round is tried again. Comments don't count, and of a library below
only what it states counts, not its proofs. So after a change of comments, or of proofs in a lower crate, fewer rounds
are tried again. Whoever can write to the folder of these files can make the tool skip a round. In all functions here,
`tree` is the copy of the repository.
"""
from __future__ import annotations

import contextlib
import functools
import hashlib
import os
import re
from collections.abc import Iterator
from pathlib import Path

from tools.wrong.edits import Round
from tools.wrong.libraries import Tree

HERE = Path(__file__).resolve().parent
MOST_FILES = 5000  # the most results that are kept
PARTS = ("src", "specs", "proofs")  # the folders of a crate that a check reads
# A library has the texts of its proofs, but a check over the library reads only the compiled statements.
PROOF_TEXTS = "lang/antt/proofs/"
# The lines of a library's file `format` with hashes of libraries, which depend on the texts of their proofs, too.
SUMS = re.compile(rb"(?m)^(?:sum|over|needs) .*\n?")
# The lines that are only a comment, by the ends of files' names. Derived code doesn't read comments here.
COMMENTS = {".rt": re.compile(rb"(?m)^[ \t]*//.*\n?"), ".antt": re.compile(rb"(?m)^[ \t]*--(?:[ \t].*)?(?:\n|$)")}
# A character, or a comment at the end of a line, that may have a quotation mark without beginning or ending a string.
NO_STRING = re.compile(rb"'\\?\"'|\\\"|//.*")


def folder_of_user() -> Path:
    """Returns the folder in which this user's results are kept."""
    base = os.environ.get("XDG_CACHE_HOME", "")
    return (Path(base) if os.path.isabs(base) else Path.home() / ".cache") / "cenduwa/wrong"


def prover_files(tree: Tree) -> Iterator[Path]:
    """Yields the files that identify the toolchain, and those of this tool."""
    yield tree.kit / "KIT-ID"
    yield tree.kit / "bin/rattle"
    yield from sorted(HERE.glob("*.py"))


def has_long_string(text: bytes) -> bool:
    """Returns whether a string in the text of a source file may go over several lines, so that one of its lines may look
    like a comment."""
    return any(line.count(b'"') % 2 for line in NO_STRING.sub(b"", text).splitlines())


def without_comments(path: str, text: bytes) -> bytes:
    """Returns the text of a crate's file without the lines that are only a comment."""
    comment = COMMENTS.get(os.path.splitext(path)[1])
    return text if comment is None or has_long_string(text) else comment.sub(b"", text)


@functools.lru_cache(maxsize=None)
def hash_of_library(library: Path, _: bytes) -> bytes:
    """Returns the hash of what a check over a library reads of the library. The second argument is the content of the
    library's file `format`, which changes whenever the library does. So the library is read again only then."""
    total = hashlib.sha256()
    for file in sorted(it for it in library.rglob("*") if it.is_file()):
        path, content = str(file.relative_to(library)), file.read_bytes()
        if not path.startswith(PROOF_TEXTS):
            content = SUMS.sub(b"", content) if file.name == "format" else content
            total.update(f"{path} {len(content)}\n".encode() + content)
    return total.digest()


def library_texts(tree: Tree, crate: str) -> Iterator[tuple[str, bytes]]:
    """Yields the name of each library below a crate, and the hash of what a check reads of the library. For a library
    of the toolchain, yields the content of its file `format`, which has the library's hash."""
    for name in sorted({"std", *tree.uses[crate], *tree.below(crate), *(it for below in tree.below(crate) for it in tree.uses[below])}):
        form = (tree.library(name) / "format").read_bytes()
        yield f"{name}.rlib", hash_of_library(tree.library(name), form) if name in tree.uses else form


def crate_texts(folder: Path, texts: dict[str, str]) -> Iterator[tuple[str, bytes]]:
    """Yields the path and the content of each file of a crate that a check reads, without comments. `texts` has the
    contents of the files that edits change."""
    for part in PARTS:
        for file in sorted(it for it in (folder / part).rglob("*") if it.is_file()):
            path = str(file.relative_to(folder))
            yield path, without_comments(path, texts[path].encode() if path in texts else file.read_bytes())


@functools.lru_cache(maxsize=None)
def hash_of(file: Path) -> bytes:
    """Returns the hash of a file of the toolchain or of this tool, which doesn't change during a run."""
    return hashlib.sha256(file.read_bytes()).digest()


def name_of(tree: Tree, crate: str, tried: Round) -> str:
    """Returns the name under which the result of the round `tried` of a crate is kept. It is a hash of all that the
    result depends on. Raises `OSError` if a file can't be read."""
    total = hashlib.sha256()

    def add(name: str, content: bytes) -> None:
        """Adds a name and a content to the hash."""
        total.update(f"{name} {len(content)}\n".encode() + content)

    for file in prover_files(tree):
        add(file.name, hash_of(file))
    for name, content in library_texts(tree, crate):
        add(name, content)
    for path, content in crate_texts(tree.folder(crate), tried.texts):
        add(path, content)
    for edit in tried.edits:
        add(edit.name, "\n".join(it.line() for it in edit.wanted).encode())
    return total.hexdigest()


class Kept:
    """The results that are kept in a folder, or none if the folder is `None`."""

    def __init__(self, folder: Path | None) -> None:
        """Keeps results in this folder, which is made when the first result is kept, or nowhere if it is None."""
        self.folder = folder

    def has(self, name: str) -> bool:
        """Returns whether the round with this name was refused before."""
        return self.folder is not None and (self.folder / name).is_file()

    def keep(self, name: str) -> None:
        """Notes that all edits of the round with this name were refused. Removes the oldest results if there are too many.
        Does nothing if the folder can't be written."""
        if self.folder is not None:
            with contextlib.suppress(OSError):
                self.folder.mkdir(mode=0o700, parents=True, exist_ok=True)
                (self.folder / name).touch(mode=0o600)
                self.shrink(self.folder)

    @staticmethod
    def shrink(folder: Path) -> None:
        """Removes the oldest files if there are too many."""
        files = sorted(folder.iterdir(), key=lambda it: it.stat().st_mtime)
        for file in files[:-MOST_FILES]:
            file.unlink(missing_ok=True)
