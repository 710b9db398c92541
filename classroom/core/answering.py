"""Runs without a server: the command `mml answer` of the program reads requests from its input, and prints the replies.

A *lab* is a network with its students, and `mml answer` gets one lab when it starts. A *script* is a list of request
lines, each after the number of its connection, and replies have the same numbers.
"""
from __future__ import annotations

import json
import os
import subprocess
from types import TracebackType
from typing import Any

from classroom.client import Denied, Refused, reply_of
from classroom.core import lab as labs
from classroom.core.processes import begin
from classroom.core.program import Fault, host
from classroom.core.statuses import how_ended

AT_ONCE = 16_000  # the most bytes of lines that are sent before their replies are read; a pipe has room for more
MOST_SCRIPT = 1_000_000  # the most bytes of a script that is kept; `mml` accepts a larger script
SOME = 24  # the most lines that are sent before their replies are read


def start_answering(lab: labs.Lab) -> subprocess.Popen[bytes]:
    """Starts `mml answer` for a lab, and returns its process, whose input, output and errors are pipes. The lab's file
    has no name, so that a student's program can't find it. Raises `Fault` if the program isn't built."""
    program = host()
    file = os.memfd_create("lab")
    try:
        with open(file, "wb", closefd=False) as it:
            it.write(labs.text(lab).encode())
        return begin(
            [program, "answer", f"/dev/fd/{file}"], stdin=subprocess.PIPE, stdout=subprocess.PIPE,
            stderr=subprocess.PIPE, pass_fds=(file,), start_new_session=True,
        )
    finally:
        os.close(file)


def replies_to(lab: labs.Lab, script: list[str]) -> str:
    """Runs `mml answer` for a lab with a whole script as its input. Returns the replies, one per line, each after the
    number of its connection. Raises `Fault` if the program isn't built, fails, or doesn't reply to each line."""
    with start_answering(lab) as process:
        out, error = process.communicate("\n".join([*script, ""]).encode("ascii"))
    replies, said = out.decode("ascii"), error.decode(errors="replace").strip()
    count = replies.count("\n")
    if process.returncode != 0 or count != len(script):
        raise Fault(said or f"`mml answer` printed {count} replies to {len(script)} requests. This is an error of the program: report it to its developers",
                    process.returncode or 4)
    return replies


class Answering:
    """A process of `mml answer` for one lab, which replies to one request line after another."""

    def __init__(self, lab: labs.Lab) -> None:
        """Starts `mml answer` for a lab. Raises `Fault` if the program isn't built."""
        self.lab = lab
        self.process = start_answering(lab)
        self.size = self.place = 0  # the number of bytes in `granted`, and the place (the number) of the last event
        self.granted: list[bytes] = []  # the lines of the script that repeats what was granted
        self.names: dict[int, str] = {}  # the name that has greeted on each connection

    def answers(self, lines: list[tuple[int, bytes]]) -> list[bytes]:
        """Sends lines, each with the number of its connection. Returns the replies in the same order, without
        connection numbers. Sends only a few lines before it reads their replies: if the pipes of both processes were
        full, each process would wait for the other. Raises `Fault` if the program has ended."""
        assert self.process.stdin is not None and self.process.stdout is not None
        replies: list[bytes] = []
        while len(replies) < len(lines):
            part: list[bytes] = []
            size = 0
            for connection, line in lines[len(replies):len(replies) + SOME]:
                if part and size + len(line) > AT_ONCE:
                    break
                part.append(b"%d %s\n" % (connection, line))
                size += len(line)
            try:
                self.process.stdin.write(b"".join(part))
                self.process.stdin.flush()
            except OSError:
                raise self.kill_and_explain() from None
            for line in part:
                reply = self.process.stdout.readline()
                if not reply.endswith(b"\n"):
                    raise self.kill_and_explain()
                replies.append(reply.partition(b" ")[2][:-1])
        return replies

    def kill_and_explain(self) -> Fault:
        """Kills the program, which has ended or doesn't answer. Returns the fault for the caller to raise. Its text has
        the program's exit status and error output."""
        assert self.process.stderr is not None
        self.process.kill()
        said = self.process.stderr.read().decode(errors="replace").strip()
        status = self.process.wait()
        return Fault(f"`mml answer` has ended unexpectedly, {how_ended(status)}. It printed: {said or 'nothing'}. "
                     "Try again. If it happens again, report it to the developers", 4)

    def answer(self, connection: int, line: bytes) -> dict[str, Any]:
        """Sends a line on a connection, and returns the values of the JSON reply. If the reply grants a hello or a bye,
        or has a new event, adds the line to the script that repeats the run. Raises `Fault` if the program has ended,
        and `NotReply` if it prints anything but a reply."""
        reply = reply_of(self.answers([(connection, line)])[0])
        self.keep(connection, line, reply)
        return reply

    def keep(self, connection: int, line: bytes, reply: dict[str, Any]) -> None:
        """Adds a line of the connection with this number to the script that repeats the run. Does so only if `reply`
        grants a hello or a bye, or has the place of a new event. Leaves the line out if the script would become larger
        than MOST_SCRIPT. Also notes in `place` the place of the last event."""
        self.place = reply.get("place", self.place)
        if (reply.get("ok") in ("hello", "bye") or "place" in reply) and self.size + len(line) < MOST_SCRIPT:
            self.granted.append(b"%d %s\n" % (connection, line))
            self.size += len(self.granted[-1])

    def ask(self, connection: int, **request: object) -> dict[str, Any]:
        """Sends a request with these values on a connection, and returns the values of the reply. Raises `Denied` or
        `Refused` if the reply isn't `ok`, and `Fault` if the program has ended."""
        reply = self.answer(connection, json.dumps(request, separators=(",", ":")).encode())
        if "deny" in reply:
            raise Denied(reply["clause"], reply["deny"], reply["text"], reply.get("at"))
        if "refuse" in reply:
            raise Refused(reply["refuse"])
        return reply

    def greet(self, connection: int, name: str) -> None:
        """Sends a hello with the key of the student or teacher `name`, and a bye before it if another name has greeted
        on that connection. Does nothing if `name` has greeted there already. Raises `Denied` or `Refused` if a reply
        isn't `ok`, and `Fault` if the program has ended."""
        if self.names.get(connection) == name:
            return
        if connection in self.names:
            self.ask(connection, do="bye")
        key = self.lab.teacher[1] if name == self.lab.teacher[0] else self.lab.students[name]
        self.ask(connection, do="hello", name=name, key=key)
        self.names[connection] = name

    def script(self) -> bytes:
        """Returns the script that repeats the run, a list of request lines: the granted hellos and byes, and the lines
        that made an event. Lines for which the script had no room are left out."""
        return b"".join(self.granted)

    def close(self) -> None:
        """Kills the process of the program, and waits for its end."""
        for pipe in (self.process.stdin, self.process.stdout, self.process.stderr):
            assert pipe is not None
            try:
                pipe.close()
            except OSError:  # The program has ended, so the rest of its input can't be written.
                pass
        self.process.kill()
        self.process.wait()

    def __enter__(self) -> Answering:
        return self

    def __exit__(self, kind: type[BaseException] | None, error: BaseException | None, trace: TracebackType | None) -> None:
        self.close()
