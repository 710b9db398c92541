"""A small clone with a stand-in for the toolchain's `rt`, which proves nothing. The stand-in prints what `rt ci` would
print, and keeps what it has "proved". Settings are files that it reads."""
from __future__ import annotations

import os
import shutil
import signal
import subprocess
import sys
import tempfile
import time
import unittest
from collections.abc import Callable
from pathlib import Path

TOP = Path(__file__).resolve().parents[2]
LIMIT = 300.0  # seconds after which a command counts as hanging
CRATES = "# A line a crate.\nlow: itoa\nunused: low\nleft: low\nright: low\nmml_server: left\nmml_host: left right\n"
# A program in place of the toolchain's `rt`, which proves one crate after another by a process with the prover's name.
# In the first repository of a build, if nothing is to be proved, that process doesn't end. Files in the test's folder
# change what the program does: it waits before the crate that `waits` names, and fails at the one that `fails` names.
# The crates that `meets` names have to be proved side by side. If there is a file `lacks`, the program keeps nothing.
STAND_IN = '''#!{python}
import os, pathlib, re, subprocess, sys, time
if sys.argv[1:] == ["version"]:
    sys.exit("a-kit logic 1")
room, here = pathlib.Path({room!r}), pathlib.Path.cwd()
named = lambda name: (room / name).read_text() if (room / name).exists() else ""
(room / "words").write_text(" ".join(sys.argv[1:]))
(room / "seen").write_text("\\n".join(sorted(str(it) for it in pathlib.Path().rglob("*"))))
(room / "temporary").write_text(os.environ["TMPDIR"])
(room / "jobs").write_text(os.environ["RT_JOBS"])
crates = re.findall(r"(?m)^(\\w+):", pathlib.Path("crates.txt").read_text())
with (room / "runs").open("a") as it:
    it.write(" ".join(crates) + "\\n")
with (room / "processors").open("a") as it:
    it.write(f"{{crates[-1]}} {{len(crates)}} {{len(os.sched_getaffinity(0))}}\\n")
with (room / "memory").open("a") as it, open("/proc/meminfo") as memory:
    it.write(f"{{crates[-1]}} {{len(crates)}} {{memory.readline().split()[1]}}\\n")
for crate in crates:
    kept = room / "kept" / crate
    if not kept.exists():
        subprocess.run([room / "rattle", "1000" if here.name == "1" else "0.1"], cwd=here / "crates" / crate)
    if crate == named("waits"):
        child = subprocess.Popen(["sleep", "1000"])
        (room / "new").write_text(f"{{os.getpid()}} {{child.pid}}")
        (room / "new").rename(room / "pids")
        child.wait()
    if crate in named("meets").split():
        (room / ("met-" + crate)).touch()
        until = time.monotonic() + 100
        while not all((room / ("met-" + it)).exists() for it in named("meets").split()) and time.monotonic() < until:
            time.sleep(0.05)
    if crate == named("fails") or crate in named("meets").split() and time.monotonic() >= until:
        print("== " + crate + "\\nsrc/lib.rt:1:1: error: a goal is open\\nrt: " + crate + " NOT PROVED\\n0 passed, 1 failed")
        sys.exit(1)
    how = "is kept: an earlier run on this machine proved the same files" if kept.exists() else "proved"
    named("lacks") or kept.touch()
    print(f"rt: {{crate}} {{how}}", flush=True)
    if not crate.startswith("mml_"):
        os.makedirs(f"crates/{{crate}}/out/rlib/{{crate}}.rlib")
        pathlib.Path(f"crates/{{crate}}/out/rlib/{{crate}}.rlib/format").write_text("new")
    else:
        os.makedirs(f"crates/{{crate}}/out")
        pathlib.Path(f"crates/{{crate}}/out/{{crate}}").write_text(named("program") or "#!/bin/sh\\necho new\\n")
if named("lacks"):
    print("rt: note: " + named("lacks"))
print("1 passed, 0 failed")
'''
# The process with the prover's name. It ends after the seconds that are its argument.
PROVER = '#!/bin/sh\nsleep "$1" & wait\n'


class InClone(unittest.TestCase):
    """A test with a clone, a stand-in `rt` on the path, and a folder for temporary files that has to be empty at the
    end."""

    def setUp(self) -> None:
        """Makes the clone with the crates in CRATES, the stand-in in the folder `bin`, and the folder for temporary
        files."""
        room = tempfile.TemporaryDirectory()
        self.addCleanup(room.cleanup)
        self.room = Path(room.name)
        self.clone, self.bin, self.temporary = (self.room / name for name in ("clone", "bin", "tmp"))
        for folder in (self.bin, self.temporary, self.room / "kept", self.clone / "tools"):
            folder.mkdir(parents=True)
        for name in ("mml", "VERSION", "HANDLES", "tools/__init__.py"):
            shutil.copy(TOP / name, self.clone / name)
        shutil.copytree(TOP / "tools/build", self.clone / "tools/build", ignore=shutil.ignore_patterns("__pycache__"))
        (self.clone / "crates.txt").write_text(CRATES, encoding="utf-8")
        for crate in ("low", "unused", "left", "right", "mml_server", "mml_host"):
            source = self.clone / "crates" / crate / "src/lib.rt"
            source.parent.mkdir(parents=True)
            source.write_text(f"// {crate}\n", encoding="utf-8")
        for file, text in ((self.bin / "rt", STAND_IN.format(python=sys.executable, room=str(self.room))), (self.room / "rattle", PROVER)):
            file.write_text(text, encoding="utf-8")
            file.chmod(0o755)

    def environment(self, **more: str) -> dict[str, str]:
        """Returns an environment in which `rt` is the stand-in, and proofs run one after another. The variables that
        name a program, MML_PROGRAM and MML_HOST, are removed. The variables in `more` are added, or replace others."""
        kept = {name: it for name, it in os.environ.items() if name not in ("MML_PROGRAM", "MML_HOST", "RT_JOBS")}
        return {**kept, "PATH": f"{self.bin}:{os.environ['PATH']}", "TMPDIR": str(self.temporary),
                "PYTHONDONTWRITEBYTECODE": "1", "RT_JOBS": "1", **more}

    def set(self, name: str, text: str) -> None:
        """Writes the setting `name` of the stand-in, which becomes `text`."""
        (self.room / name).write_text(text, encoding="utf-8")

    def call(self, *words: str | Path, **more: str) -> subprocess.CompletedProcess[str]:
        """Runs a command of the clone to its end, with `more` in its environment. Returns its result."""
        return subprocess.run(words, cwd=self.clone, stdin=subprocess.DEVNULL, capture_output=True, text=True,
                              env=self.environment(**more), timeout=LIMIT, check=False)

    def start(self, *words: str | Path) -> subprocess.Popen[str]:
        """Starts a command of the clone as the leader of a group of processes, and waits until the stand-in has come to
        the crate that the setting `waits` names. Returns the command's process. Fails if the command ends before."""
        (self.room / "pids").unlink(missing_ok=True)
        going = subprocess.Popen(words, cwd=self.clone, stdin=subprocess.DEVNULL, stdout=subprocess.PIPE, stderr=subprocess.PIPE,
                                 text=True, env=self.environment(), start_new_session=True)
        self.addCleanup(self.clear, going)
        self.wait_until(lambda: self.pids() or going.poll() is not None)
        if going.poll() is not None:
            self.fail(str(going.communicate()))
        return going

    def pids(self) -> list[int]:
        """Returns the numbers of two processes: the waiting stand-in and its child. They may have ended since. Returns
        an empty list if the stand-in hasn't waited yet."""
        text = (self.room / "pids").read_text(encoding="utf-8") if (self.room / "pids").exists() else ""
        return [int(it) for it in text.split()]

    def wait_for_end(self, going: subprocess.Popen[str]) -> str:
        """Waits until the command `going` and the stand-in have ended. Returns the command's standard error."""
        _, error = going.communicate(timeout=LIMIT)
        self.wait_until(lambda: not is_there(self.pids()[0]))
        return str(error)

    def wait_until(self, holds: Callable[[], object]) -> None:
        """Waits until the function `holds` returns a true value. Fails after a time limit."""
        until = time.monotonic() + LIMIT
        while not holds():
            self.assertLess(time.monotonic(), until)
            time.sleep(0.02)

    def clear(self, going: subprocess.Popen[str]) -> None:
        """Kills a command with its group, and the stand-in, if they are running."""
        if going.poll() is None:
            os.killpg(going.pid, signal.SIGKILL)
            going.communicate(timeout=LIMIT)
        for pid in self.pids():
            if is_there(pid):
                os.kill(pid, signal.SIGKILL)

    def program(self, crate: str) -> Path:
        """Returns the path of a crate's program in the clone."""
        return self.clone / "crates" / crate / "out" / crate


def is_there(pid: int) -> bool:
    """Returns whether a process with this number is running."""
    try:
        # The letter after the name in parentheses is the process's state. Z is that of one that has ended.
        return Path(f"/proc/{pid}/stat").read_text(encoding="utf-8").rpartition(") ")[2][0] != "Z"
    except OSError:
        return False
