"""A student's program under test, a *bot*: a process with limits, in its own folder, that is ended together with all
that it started.

The process that starts the bot and enforces its limits is its *keeper* (`classroom.bots.keeper`). A bot is *kept apart*
if it runs in namespaces of its own (`classroom.bots.apart`). A *slip* is the file with what a bot needs to connect.
"""
from __future__ import annotations

import json
import os
import select
import shlex
import shutil
import signal
import socket
import subprocess
import sys
import tempfile
import time
from dataclasses import asdict, dataclass
from pathlib import Path

from classroom.bots import seen
from classroom.bots.apart import World
from classroom.bots.keeper import FILE_BYTES, NO_NAMESPACES
from classroom.core.processes import begin, end_below, end_strays, is_halted
from classroom.core.program import TOP, Fault

KEEPER = f"import sys; sys.path.insert(0, {str(TOP)!r}); from classroom.bots.keeper import main; main()"
KEPT = ("PATH", "LANG", "LC_ALL", "JAVA_HOME")
RUN_BY = {".py": [sys.executable], ".java": ["java", "-XX:TieredStopAtLevel=1", "-XX:+UseSerialGC"], ".js": ["node"]}
SHOWN = 400  # bytes at the end of a bot's output in which its last line is searched
PATIENCE = 30.0  # seconds that a keeper has to end its bot
AGAIN = 0.1  # seconds between two signals that make a stopped keeper continue, since its bot may stop it again and again


@dataclass(frozen=True)
class Bot:
    """The command that starts a bot, without its last argument, the path of a slip."""

    name: str
    words: tuple[str, ...]
    fault: str = ""  # why it can't be run

    @staticmethod
    def of(word: str) -> Bot:
        """Returns the bot of the command `word`, which is split as a shell does it. The command's first word may also
        be a file in the working directory. A single file that ends in .py, .java or .js, and that can't be run
        directly, is run by Python, Java or Node. Names of existing files become absolute paths, since the bot runs in
        another folder. The bot's name is the command without the folders of its files. If the command can't be run, or
        names a missing file that ends in .py, .java or .js, the bot's `fault` says why."""
        try:
            words = shlex.split(word)
        except ValueError as error:
            return Bot(word, (), f"{word}: this command can't be split into words: {error}")
        if not words:
            return Bot(word, (), "a BOT on the command line is empty: name a program or a command, such as 'python3 bot.py'")
        name = " ".join(Path(each).name for each in words)
        is_file = Path(words[0]).is_file()
        if len(words) == 1 and is_file and not runs_itself(Path(words[0])):
            words = RUN_BY.get(Path(words[0]).suffix, []) + words
        found = (shutil.which(Path(words[0]).absolute()) if is_file else None) or shutil.which(words[0])
        if found is None:
            return Bot(name, (), cant_run(words[0]))
        rest = [str(Path(each).resolve()) if Path(each).is_file() else each for each in words[1:]]
        for each in rest:
            if Path(each).suffix in RUN_BY and not Path(each).is_file():
                return Bot(name, (), f"{each}: there is no such file")
        return Bot(name, (str(Path(found).absolute()), *rest))


def cant_run(word: str) -> str:
    """Returns a text that says why a command whose first word is `word` can't be run, and what a BOT is. The word is
    either a file that can't be run, or no program at all."""
    if Path(word).is_file():
        return f"{word}: this file can't be run; make it executable, or name the command that runs it, such as 'python3 bot.py'"
    return f"{word}: there is no such program; a BOT is a command as you type it in a terminal, such as 'python3 bot.py'"


def runs_itself(file: Path) -> bool:
    """Returns whether a file can be run directly. Such a file has to be executable. A file whose name ends in .py,
    .java or .js also has to begin with `#!`, unless it can't be read."""
    if not os.access(file, os.X_OK):
        return False
    if file.suffix not in RUN_BY or not os.access(file, os.R_OK):
        return True
    with file.open("rb") as it:
        return it.read(2) == b"#!"


class RunningBot:
    """A bot that is running within its limits."""

    def __init__(self, bot: Bot, slip: Path, folder: Path, seconds: float | None, megabytes: int, output: int = 2,
                 world: World | None = None) -> None:
        """Starts the bot in `folder`, with the path `slip` as its last argument. `seconds` limits its processor time,
        `megabytes` its memory, and `output` is the file descriptor that it prints to. If `seconds` is None, only its
        memory is limited, and it gets the whole environment of this process, like a student's own program at home. If
        `world` is given, the bot runs in namespaces of its own, and `world` says which files and which port it sees
        there. Raises `Fault` if the keeper can't be started."""
        self.how = ""
        self.channel, theirs = socket.socketpair()
        at_home = seconds is None
        environment = dict(os.environ) if at_home else {word: os.environ[word] for word in KEPT if word in os.environ}
        environment |= {} if at_home else {"HOME": str(folder), "TMPDIR": str(folder), "PYTHONUNBUFFERED": "1", "PYTHONDONTWRITEBYTECODE": "1"}
        plan = {"words": [*bot.words, str(slip)], "folder": str(folder), "megabytes": megabytes, "seconds": int(seconds or 0),
                "channel": theirs.fileno(), "world": asdict(world) if world else None}
        try:
            with theirs:
                self.process = begin([sys.executable, "-I", "-S", "-B", "-c", KEEPER], stdin=subprocess.PIPE, stdout=subprocess.PIPE,
                                     stderr=output, cwd=folder, env=environment, start_new_session=True, pass_fds=[theirs.fileno()] * bool(world))
        except OSError as error:
            self.channel.close()
            raise Fault(f"{error.filename or folder}: {error.strerror}", 4) from None
        self.send_to_keeper(json.dumps(plan))

    def send_to_keeper(self, line: str) -> None:
        """Writes a line to the keeper's standard input. Ignores the error if the keeper has ended, since `ended`
        reports that."""
        assert self.process.stdin is not None
        try:
            self.process.stdin.write(line.encode() + b"\n")
            self.process.stdin.flush()
        except OSError:
            pass

    def listener(self) -> socket.socket | None:
        """Returns the listening socket in the namespace of a bot that is kept apart, or None if the keeper hasn't sent
        it. Waits AGAIN seconds at most."""
        if not select.select([self.channel], [], [], AGAIN)[0]:
            return None
        files = socket.recv_fds(self.channel, 1, 1)[1]
        return socket.socket(fileno=files[0]) if files else None

    def ended(self) -> str:
        """Returns how the bot has ended, `ended STATUS` or `killed REASON`, or an empty text while it runs. Kills a bot
        that has halted its keeper, and all processes that are left of a bot that has killed its keeper."""
        if self.process.poll() is None:
            if not is_halted(self.process.pid):
                return ""
            self.how = "killed it halted the process that watches it"
            self.kill_keeper()
        assert self.process.stdout is not None
        if not self.process.stdout.closed:
            end_strays()
            self.how = self.how or self.last_output() or "killed it killed the process that watches it"
            self.process.stdout.close()
        return self.how

    def last_output(self) -> str:
        """Returns the line that the keeper printed before it ended, or an empty text if the keeper failed or was
        killed. Reads without waiting, since the bot may hold the pipe open too."""
        assert self.process.stdout is not None
        os.set_blocking(self.process.stdout.fileno(), False)
        try:
            line = os.read(self.process.stdout.fileno(), 1 << 12)
        except OSError:
            return ""
        return line.decode(errors="replace").strip() if self.process.returncode == 0 else ""

    def kill_keeper(self) -> None:
        """Kills the keeper, also if it is halted. Kills all its descendants first, because they would become children
        of this process."""
        end_below(self.process.pid)
        self.process.kill()
        self.process.wait()
        end_strays()

    def stop(self) -> str:
        """Ends the bot with all processes that it started, by closing the keeper's standard input. Kills them and the
        keeper if the keeper doesn't end within PATIENCE seconds. Returns how the bot ended, `ended STATUS` or `killed
        REASON`."""
        assert self.process.stdin is not None
        self.channel.close()
        try:
            self.process.stdin.close()
        except OSError:
            pass
        end = time.monotonic() + PATIENCE
        while self.process.poll() is None and time.monotonic() < end:
            self.process.send_signal(signal.SIGCONT)  # The bot may have stopped its keeper.
            try:
                self.process.wait(AGAIN)
            except subprocess.TimeoutExpired:
                continue
        if self.process.poll() is None:
            self.how = "killed it halted the process that watches it"
            self.kill_keeper()
        return self.ended()


def namespaces_refusal() -> str:
    """Tries to run a program that does nothing in namespaces of its own. Returns why bots can't be kept apart on this
    system, or an empty text if they can. Raises `Fault` if the keeper can't be started."""
    it = Bot("true", ("/bin/true",))
    try:
        with tempfile.TemporaryDirectory() as room, tempfile.TemporaryFile() as output:
            world = World(seen.shown(it.words), (), "", 1024)  # In its own namespaces any port is free.
            kept = RunningBot(it, Path(room, "bot.slip"), Path(room), PATIENCE, 64, output.fileno(), world)
            while not (how := kept.ended()):
                if (listener := kept.listener()) is not None:
                    listener.close()
            kept.stop()
    except OSError as error:
        return f"{error.filename or tempfile.gettempdir()}: {error.strerror}"
    return "" if how == "ended 0" else how.removeprefix(f"killed {NO_NAMESPACES}")


def end_in_words(how: str, seconds: float | None) -> str:
    """Returns a text for people, to follow the words `the bot`, about how a bot has ended. `how` is `ended STATUS` or
    `killed REASON`, and `seconds` the limit of its processor time, or None if it has no such limit. A negative status
    is a signal, which the system sends, for example, to a bot that exceeds a limit."""
    kind, _, what = how.partition(" ")
    if kind == "killed":
        return f"was ended: {what}"
    status = int(what)
    if status >= 0:
        return f"ended by itself, with status {status}"
    limits = {} if seconds is None else {
        int(signal.SIGXCPU): f"used more than {seconds:g} seconds of processor time, the limit of --timeout, and was ended",
        int(signal.SIGXFSZ): f"made a file of more than {FILE_BYTES >> 20} megabytes, and was ended",
        int(signal.SIGKILL): "was ended by the signal SIGKILL, which the system sends if a program uses far too much processor time or memory",
    }
    return limits.get(-status, f"was ended by the signal {signal_name(-status)}")


def signal_name(number: int) -> str:
    """Returns the name of a signal, such as `SIGKILL`, or its number if it has no name."""
    try:
        return signal.Signals(number).name
    except ValueError:
        return str(number)


def last_line(output: int) -> str:
    """Returns the last line that a bot has printed, or an empty text if there is none. Of a line longer than SHOWN
    bytes, returns only the end. `output` is the descriptor of the file with its output."""
    size = os.fstat(output).st_size
    lines = os.pread(output, SHOWN, max(0, size - SHOWN)).decode(errors="replace").strip().splitlines()
    return lines[-1] if lines else ""
