"""The programs and Debian packages that parts of a check need. Only this module installs packages.

    python3 -B -m tools.check.needs FOLDER     downloads the packages that are never installed into a folder
"""
from __future__ import annotations

import os
import shutil
import subprocess
import sys
from collections.abc import Callable
from dataclasses import dataclass
from functools import cache
from pathlib import Path

from tools.check.parts import TOP, Part

APT = ("apt-get", "-y", "-o", "DPkg::Lock::Timeout=600", "--no-install-recommends")
NEVER_INSTALLED = "openssh-server"  # a package that is never installed, since its installation would start a server


@dataclass(frozen=True)
class Need:
    """A requirement of parts: what it is, its test, and the Debian packages that meet it."""

    what: str
    is_there: Callable[[], bool]
    packages: tuple[str, ...] = ()
    is_a_must: bool = False  # Whether parts fail without it, since their result would mean nothing.


def on_path(*programs: str) -> Callable[[], bool]:
    """Returns a function that returns whether all these programs are on the path."""
    return lambda: all(shutil.which(it) for it in programs)


def is_installed(package: str) -> bool:
    """Returns whether Debian's package manager lists the package as installed."""
    words = ["dpkg-query", "-W", "-f", "${Status}", package]
    try:
        return subprocess.run(words, capture_output=True, text=True, check=False).stdout == "install ok installed"
    except OSError:
        return False


def installed(*packages: str) -> Callable[[], bool]:
    """Returns a function that returns whether all these packages are installed."""
    return lambda: all(map(is_installed, packages))


@cache
def is_built(program: str = "mml_host") -> bool:
    """Returns whether a program is built from these sources. By default it is `mml_host`, the one that people run. The
    result is kept until `missing` is called."""
    call = ("python3", "-B", "-m", "tools.build", "--built", program)
    return subprocess.run(call, cwd=TOP, capture_output=True, check=False).returncode == 0


def is_built_or_named() -> bool:
    """Returns whether the program is built from these sources, or the environment variables MML_PROGRAM and MML_HOST
    name other programs."""
    return bool(os.environ.get("MML_PROGRAM") and os.environ.get("MML_HOST")) or is_built()


def has_server() -> bool:
    """Returns whether the smaller program, which is built only with the proofs of all crates, is built from these
    sources."""
    return is_built("mml_server")


def has_tests() -> bool:
    """Returns whether any crate's test program is built."""
    return any(TOP.glob("crates/*/out/*_tests"))


def can_be_fetched() -> bool:
    """Returns whether the package NEVER_INSTALLED is installed, or can probably be downloaded."""
    return is_installed(NEVER_INSTALLED) or apt("--print-uris", "install", NEVER_INSTALLED)


BROWSER = ("chromium", "chromium-driver", "python3-selenium")
NOTEBOOK = ("jupyter-nbconvert", "python3-ipykernel")
TYPES = ("mypy", "flake8", "python3-selenium")
RELEASE = ("python3", "stunnel4", "openssl", "openssh-client", "systemd")
NEEDS = {
    "rt": Need("the command rt of the Rattle toolchain on the path (README.md)", on_path("rt")),
    "programs": Need("the program, built from these sources: ./mml build", is_built_or_named, is_a_must=True),
    "built": Need("the program in its place, built from these sources: ./mml build", is_built, is_a_must=True),
    "server": Need("the smaller program mml_server, as ./check proofs leaves it", has_server),
    "tests": Need("the tests inside the crates, as ./check proofs leaves them", has_tests),
    "git": Need("the command git", on_path("git"), ("git",)),
    "python3": Need("Debian's own Python", on_path("/usr/bin/python3"), ("python3",)),
    "types": Need("the checkers of Python's types and style", installed(*TYPES), TYPES),
    "man": Need("the command man, which finds errors in man pages", on_path("man"), ("man-db",)),
    "browser": Need("a browser with its driver", installed(*BROWSER), BROWSER),
    "pictures": Need("the command rsvg-convert", on_path("rsvg-convert"), ("librsvg2-bin",)),
    "jupyter-nbconvert": Need("the command jupyter-nbconvert, with a kernel", on_path("jupyter-nbconvert"), NOTEBOOK),
    "java": Need("the command java", on_path("java"), ("default-jdk-headless",)),
    "node": Need("the command node", on_path("node"), ("nodejs",)),
    "cc": Need("a compiler of C, as cc", on_path("cc"), ("gcc", "libc6-dev")),
    "rustc": Need("the command rustc", on_path("rustc"), ("rustc",)),
    "release": Need("what a release is tried with", installed(*RELEASE), RELEASE),
    "root": Need("the right to use another root folder: call this command as root", lambda: os.geteuid() == 0),
    NEVER_INSTALLED: Need("a server of SSH", can_be_fetched, (NEVER_INSTALLED,)),
}


def apt(*words: str) -> bool:
    """Runs Debian's package manager with these arguments and without output. Returns whether it succeeded."""
    try:
        return subprocess.run([*APT, *words], stdin=subprocess.DEVNULL, capture_output=True, check=False).returncode == 0
    except OSError:
        return False


def missing(parts: list[Part]) -> dict[str, Need]:
    """Returns the needs of these parts that aren't met, by their names. Needs of only a few tests of a part (`likes`)
    count too."""
    is_built.cache_clear()
    names = dict.fromkeys(name for part in parts for name in (*part.needs, *part.likes))
    return {name: NEEDS[name] for name in names if not NEEDS[name].is_there()}


def instruction(need: Need) -> str:
    """Returns a text that says what a need asks for, with those of its Debian packages that are missing. If none is
    missing, although the need isn't met, the text has all of its packages."""
    lacking = [it for it in need.packages if not is_installed(it)] or [*need.packages]
    return f"{need.what} (Debian's {' '.join(lacking)})" if lacking else need.what


def install(parts: list[Part]) -> None:
    """Tries to install the packages that these parts or a few of their tests need, except for NEVER_INSTALLED. Does
    nothing if this process isn't that of root."""
    needs = [NEEDS[name] for part in parts for name in (*part.needs, *part.likes) if NEEDS[name].packages]
    packages = {it for need in needs if not need.is_there() for it in need.packages if not is_installed(it)}
    if packages and os.geteuid() == 0 and apt("update"):
        apt("install", *sorted(packages - {NEVER_INSTALLED}))


def fetch(folder: Path) -> None:
    """Downloads the package NEVER_INSTALLED, with its dependencies, into a folder. Exits with an error line if that
    isn't possible."""
    (folder / "partial").mkdir(parents=True, exist_ok=True)
    words = ["-o", f"Dir::Cache::archives={folder}", "-o", "APT::Sandbox::User=root", "--download-only", "install", NEVER_INSTALLED]
    if not (apt(*words) or apt("update") and apt(*words)):
        sys.exit(f"the package {NEVER_INSTALLED} can't be downloaded: apt-get fails here")


if __name__ == "__main__":
    fetch(Path(sys.argv[1]))
