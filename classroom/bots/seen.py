"""The files of this machine that a bot, a student's program, sees if it is kept apart from other files. Such a bot sees
its own files, and those that its interpreter needs.

A *command* here is the tuple of words that starts a bot.
"""
from __future__ import annotations

import os
import tempfile
from collections.abc import Iterable
from functools import cache
from pathlib import Path

from classroom.core.program import TOP

SYSTEM = ("/usr", "/bin", "/sbin", "/lib", "/lib32", "/lib64", "/libx32", "/nix/store", "/gnu/store")
OF_ETC = ("alternatives", "ld.so*", "java*", "python*", "node*", "localtime", "passwd", "group", "nsswitch.conf", "hosts", "ssl/certs")
OF_PROGRAMS = ("bin", "sbin", "shims")  # the names of folders in which an installation has its programs
BESIDE = ("lib", "lib64", "libexec")  # the names of folders that an installation has beside these
CLIENT = "client.py"  # the module that students copy beside their bots
APART = "=:,"  # the letters that separate paths in a word of a command


def link_steps(path: Path) -> list[Path]:
    """Returns a path, the target of its link, the target of that link, and so on, and the path without any links in
    it."""
    found: list[Path] = []
    while path not in found:
        found.append(path)
        if path.is_symlink():
            path = Path(os.path.normpath(path.parent / os.readlink(path)))
    return list(dict.fromkeys([*found, found[0].resolve()]))


def contains_any(folder: Path, paths: Iterable[Path]) -> bool:
    """Returns whether one of the paths is in a folder, or is the folder."""
    return any(path.is_relative_to(folder) for path in paths)


def is_private(folder: Path) -> bool:
    """Returns whether a folder may have other files than programs: the home, its folder `.local`, the folder of
    temporary files, and those above them."""
    home = Path.home()
    return contains_any(folder, (home, home / ".local", Path(tempfile.gettempdir()), home.resolve()))


def with_needed(file: Path) -> list[Path]:
    """Returns the paths to show for a program's file. If the file is in a folder of programs such as `bin`, with
    libraries beside that folder, this is the whole installation, the folder above. If the folder above is private,
    returns the file's folder and those libraries instead. Without such libraries, returns only the file's folder. Of a
    private folder, returns only the file and the module that students use."""
    folder = file.parent
    beside = [folder.parent / each for each in BESIDE if folder.name in OF_PROGRAMS and (folder.parent / each).is_dir()]
    if beside and not is_private(folder.parent):
        return [folder.parent]
    return [*((file, folder / CLIENT) if is_private(folder) else (folder,)), *beside]


@cache
def files_of(words: tuple[str, ...]) -> list[Path]:
    """Returns the existing files and folders among the words of a command, and the targets of their links. Only
    absolute paths count, without the root. A word may also contain several paths, as in `-cp=/a:/b`."""
    found: list[Path] = []
    for word in words:
        parts = word.translate({ord(each): "\n" for each in APART}).splitlines()
        for part in dict.fromkeys([word, *parts]):
            if part.startswith("/") and part.strip("/") and Path(part).exists():
                found += link_steps(Path(part))
    return list(dict.fromkeys(found))


@cache
def common() -> list[Path]:
    """Returns what every bot sees: the system's programs, those in PATH with what they need, JAVA_HOME, and the folder
    of the module that students use. Leaves out folders in PATH and JAVA_HOME that are private."""
    found = [Path(each) for each in SYSTEM] + [file for each in OF_ETC for file in Path("/etc").glob(each)]
    for each in os.environ.get("PATH", "").split(":"):
        if each.startswith("/") and Path(each).is_dir() and not is_private(Path(each)):
            # "program" stands for any program in the folder; there need be no such file.
            found += [place for step in link_steps(Path(each)) for place in with_needed(step / "program")]
    java = Path(os.environ.get("JAVA_HOME", "."))
    return [*found, TOP / "classroom", *([java] if java.is_absolute() and not is_private(java) else [])]


def shown(words: tuple[str, ...], more: Iterable[Path] = ()) -> tuple[tuple[str, str], ...]:
    """Returns the files and folders that a bot with the command `words` sees, and those in `more`. Each is a path and
    its real path. No path is below another."""
    wanted = [*common(), *more]
    for file in files_of(words):
        wanted += [file] if file.is_dir() else with_needed(file)
    places: list[Path] = []
    for place in sorted({place for place in wanted if place.exists()}, key=lambda place: len(place.parts)):
        if not is_in_any(places, place):
            places.append(place)
    return tuple((str(place), str(place.resolve())) for place in places)


def is_in_any(folders: Iterable[Path], path: Path) -> bool:
    """Returns whether a path is in one of the folders, or is one of them."""
    return any(path.is_relative_to(folder) for folder in folders)


def hidden(words: tuple[str, ...], others: Iterable[tuple[str, ...]], results: Path) -> tuple[str, ...]:
    """Returns the paths among the shown files that have to be hidden from a bot with the command `words`. Such paths
    are the folder of results, and the files of the commands in `others`. The whole folder of such a file is hidden if
    it has nothing that the bot needs."""
    own, everyones = files_of(words), common()
    found = {file for other in others for file in files_of(other)} - set(own)
    theirs = [file for file in found if not is_in_any(everyones, file)]
    near = [*own, *everyones]
    return tuple(sorted({str(results), *(str(file if is_private(file.parent) or contains_any(file.parent, near) else file.parent) for file in theirs)}))
