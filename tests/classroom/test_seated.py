"""Another program is at the desk before a class is begun, resumed or taken over. The *desk* is the port for the
teacher's programs, and has one seat. `run`, `run --resume` and `attach` have to get this seat.

In some tests the host is started by a *relay*, which passes on the host's output, but holds back its first line until
something has happened at the desk.
"""
from __future__ import annotations

import json
import os
import signal
import socket
import subprocess
import time
import unittest
from pathlib import Path

from classroom.client import Client, Refused
from classroom.run.connected import ESTABLISHED, LISTENING, rows
from classroom.core.folders import Process, Record
from classroom.core.lab import read
from classroom.core.program import TOP, host
from tests.classroom.help import CLASS, CYCLE, KEYS, LIMIT, Cycle, Going, a_port

# The relay: a program that becomes a host. Its child process passes on the host's output by the function `relay`, which
# calls `take_seat` or `wait_for_connection` before the first line.
RELAY = """#!/usr/bin/python3
import os, sys
sys.path.insert(0, {top!r})
from tests.classroom.test_seated import relay
ours, theirs = os.pipe()
if os.fork():
    os.dup2(theirs, 1)
    os.close(ours)
    os.close(theirs)
    os.execv({host!r}, [{host!r}, *sys.argv[1:]])
os.close(theirs)
relay(ours, {what!r}, {file!r})
"""
TESS = read(CYCLE).teacher
PATIENT = 30.0  # seconds in which somebody comes to a desk that listens, on a slow machine
ATTEMPTS = 10  # how many hosts are started at most, to see one while only its desk listens


def relay(lines: int, what: str, file: str) -> None:
    """Passes on the output of a host, which it reads from the file descriptor `lines`. Before the first line it calls
    `take_seat` or `wait_for_connection`, as `what` says, with the desk's port, and appends the result to `file`."""
    with open(lines, "rb") as host_lines:
        first = host_lines.readline()
        words = first.decode().split()
        if words[:1] == ["listening"]:
            kept = take_seat(int(words[-1])) if what == "take_seat" else wait_for_connection(int(words[-1]))
            with open(file, "a", encoding="utf-8") as it:
                it.write(kept)
        while first:
            os.write(1, first)
            first = host_lines.readline()


def take_seat(desk: int) -> str:
    """Says hello at a desk as a student, and leaves the connection open. Returns the reply."""
    it = socket.create_connection(("127.0.0.1", desk), LIMIT)
    it.sendall(json.dumps({"do": "hello", "name": "gus", "key": KEYS["gus"]}).encode() + b"\n")
    reply = it.makefile("rb").readline().decode()
    # `detach` keeps the connection open after this function returns, until this process ends. A program that the
    # process starts or becomes would inherit the connection, but the relay has no such program.
    os.set_inheritable(it.detach(), True)
    return reply


def wait_for_connection(desk: int) -> str:
    """Waits until somebody has connected to the port of a desk, at most PATIENT seconds. Returns a text that says
    whether somebody has."""
    end = time.monotonic() + PATIENT
    while time.monotonic() < end:
        if any(own == desk and state == ESTABLISHED for own, _, state, _ in rows()):
            return "somebody came\n"
        time.sleep(0.01)
    return "nobody came\n"


@unittest.skipUnless(host(), "not tried: no host is built")
class Seated(Cycle):
    """Runs of the cycle of `examples/`."""

    def write_relay(self, what: str) -> str:
        """Writes a relay that calls the function `what`, `take_seat` or `wait_for_connection`, before it passes on the
        host's first line. Returns its path."""
        text = RELAY.format(top=str(TOP), host=str(host()), what=what, file=str(self.room / "told"))
        it = self.file("relayed", text)
        it.chmod(0o755)
        return str(it)

    def relay_result(self) -> str:
        """Returns what the relay's function returned: the reply to its hello, or a text that says whether somebody
        came."""
        return (self.room / "told").read_text(encoding="utf-8")

    def killed(self) -> tuple[Going, Record]:
        """Starts a run, causes a fault, and kills `run` but not its server. Returns the run and its record, which has
        the server's process and ports."""
        going = Going(self, CYCLE, "--close", "by-hand")
        going.type("fault 1 2 true")
        going.until("^configuration 1: fault at node 1: p 2, m true")
        record = Record.read(going.folder)
        assert record is not None
        self.addCleanup(self.end, record.server)
        going.process.kill()
        going.process.wait()
        self.assertTrue(record.server.lives())
        return going, record

    def end(self, server: Process) -> None:
        """Kills a server if it is running."""
        if server.lives():
            os.kill(server.number, signal.SIGKILL)

    def check_goes_on(self, going: Going, events: int) -> None:
        """Checks that a class serves a student and the desk, and ends with all its files. `events` is the number of its
        events so far."""
        with Client(going.port, "hana", KEYS["hana"]) as hana:
            hana.look(read(CYCLE).nodes_of("hana")[0])
        going.type("link 1 3")
        going.until(f"^configuration {events + 1}: added the link between 1 and 3")
        self.assertEqual(going.end(), 0, going.lines)
        self.assertEqual(self.check_complete(going.folder), events + 1)

    def test_run_gets_the_seat_of_a_student_who_came_before(self) -> None:
        """The student says hello at the desk before `run` gets the host's first line."""
        going = Going(self, CYCLE, "--close", "by-hand", MML_HOST=self.write_relay("take_seat"))
        self.assertEqual(self.relay_result(), '{"ok":"hello","who":"gus"}\n')
        self.check_goes_on(going, 0)

    def test_run_resume_gets_the_seat_of_a_student_who_came_before(self) -> None:
        """The student says hello at the desk before `run --resume` gets the host's first line."""
        going, record = self.killed()
        self.end(record.server)
        while record.server.lives():
            time.sleep(0.01)
        again = Going(self, None, "run", "--resume", going.folder, "--close", "by-hand", MML_HOST=self.write_relay("take_seat"))
        self.assertEqual(self.relay_result(), '{"ok":"hello","who":"gus"}\n')
        self.assertIn("the class continues at configuration 1; events: 1 of 1000", again.lines)
        self.check_goes_on(again, 1)

    def test_attach_gets_the_seat_of_a_student_who_is_at_the_desk(self) -> None:
        """The student's next request is refused with `busy`."""
        going, record = self.killed()
        gus = Client(record.desk, "gus", KEYS["gus"])
        self.addCleanup(gus.hang_up)
        again = Going(self, None, "attach", going.folder)
        self.assertTrue(record.server.lives())
        with self.assertRaises(Refused) as refused:
            gus.look(4)
        self.assertEqual(refused.exception.word, "busy")
        self.check_goes_on(again, 1)

    def attached(self, going: Going, record: Record) -> tuple[Going, Client]:
        """Connects to the desk as the teacher, and starts an `attach`, which has to wait for the end of this
        connection. Returns the `attach` and the connection."""
        tess = Client(record.desk, *TESS)
        self.addCleanup(tess.hang_up)
        again = Going(self, None, "attach", going.folder, ready="^another program is connected to the desk; trying to connect again for a minute$")
        return again, tess

    def test_the_teacher_at_the_desk_is_waited_for(self) -> None:
        """If another connection of the teacher has the desk, `attach` connects when that connection has ended."""
        going, record = self.killed()
        again, tess = self.attached(going, record)
        tess.hang_up()
        again.until("^now connected to the server's desk$")
        again.until("^commands: ")
        self.assertEqual(sum("trying to connect again" in line for line in again.lines), 1, again.lines)
        self.check_goes_on(again, 1)

    def test_a_server_that_was_found_is_not_ended(self) -> None:
        """An `attach` that waits for the desk gets SIGTERM: it ends with status 4, and the server that it found keeps
        running."""
        going, record = self.killed()
        again, tess = self.attached(going, record)
        again.process.send_signal(signal.SIGTERM)
        self.assertEqual(again.wait_for_end(), 4, again.lines)
        self.assertEqual(again.lines[-2:], [
            "the desk can't be used, because no connection to it can be made: busy: all seats are taken; try again later",
            f"the server (process {record.server.number}) keeps running, but nobody controls it. To control it again, type: {CLASS} attach {going.folder}",
        ])
        self.assertTrue(record.server.lives())
        self.assertTrue(tess.fault(2, None, True).place)  # The other connection of the teacher still works.
        self.assertFalse((going.folder / "marks.txt").exists())
        tess.hang_up()
        self.check_goes_on(Going(self, None, "attach", going.folder), 2)

    def test_run_connects_to_the_desk_before_it_gets_the_host_s_first_line(self) -> None:
        going = Going(self, CYCLE, "--close", "by-hand", MML_HOST=self.write_relay("wait_for_connection"))
        self.assertEqual(self.relay_result(), "somebody came\n")
        self.check_goes_on(going, 0)

    def test_run_resume_connects_to_the_desk_before_it_gets_the_host_s_first_line(self) -> None:
        """The resumed class keeps its ports."""
        going, record = self.killed()
        self.end(record.server)
        while record.server.lives():
            time.sleep(0.01)
        again = Going(self, None, "run", "--resume", going.folder, "--close", "by-hand", MML_HOST=self.write_relay("wait_for_connection"))
        self.assertEqual(self.relay_result(), "somebody came\n")
        kept = Record.read(going.folder)
        assert kept is not None
        self.assertEqual((kept.port, kept.desk), (record.port, record.desk))
        self.check_goes_on(again, 1)

    def test_the_desk_listens_before_the_students_port(self) -> None:
        """Reads again and again at which of its two ports a host listens. There is a time at which it listens only at
        the desk's, and none at which it listens only at the students'. The first time lasts for a second, since nobody
        connects to the desk. If this process doesn't run in that second, or another program takes one of the ports, the
        test tries it again with another host."""
        for _ in range(ATTEMPTS):
            port, desk = a_port(), a_port()
            words: list[str | Path | None] = [host(), "host", CYCLE, str(port), str(desk)]
            it = subprocess.Popen([word for word in words if word], stdout=subprocess.DEVNULL)
            self.addCleanup(it.wait)
            self.addCleanup(it.kill)
            seen = self.listens_at(it, port)
            self.assertNotIn(frozenset({port}), seen)
            if seen >= {frozenset({desk}), frozenset({port, desk})}:
                break
        self.assertEqual(seen - {frozenset()}, {frozenset({desk}), frozenset({port, desk})})
        with Client(port, "gus", KEYS["gus"]), Client(desk, *TESS):  # The bye of the teacher ends the host.
            pass
        self.assertEqual(it.wait(LIMIT), 0)

    def listens_at(self, it: subprocess.Popen[bytes], port: int) -> set[frozenset[int]]:
        """Returns each set of ports at which the process `it` was seen to listen, until it listened at this port or had
        ended."""
        seen: set[frozenset[int]] = set()
        end = time.monotonic() + LIMIT
        while it.poll() is None and not any(port in found for found in seen):
            self.assertLess(time.monotonic(), end)
            try:
                # Only the process's own files count, since another program may listen at one of the ports.
                files = {os.readlink(each) for each in Path(f"/proc/{it.pid}/fd").iterdir()}
            except OSError:  # The process has ended, or has closed a file.
                continue
            seen.add(frozenset(own for own, _, state, number in rows() if state == LISTENING and f"socket:[{number}]" in files))
        return seen


if __name__ == "__main__":
    unittest.main()
