"""Two machines joined by a cable: network namespaces, each with its own loopback. Only root can make them."""
from __future__ import annotations

import os
import shutil
import subprocess
from collections.abc import Iterator
from contextlib import contextmanager
from dataclasses import dataclass

TEACHERS, STUDENTS = "10.77.0.1", "10.77.0.2"  # the addresses at both ends of the cable


@dataclass(frozen=True)
class Machine:
    """A machine: a network namespace, which lasts as long as its process with the number `process`."""

    process: int

    @property
    def on(self) -> tuple[str, ...]:
        """Returns the words to put before a command that is to run on the machine."""
        return "nsenter", f"--net=/proc/{self.process}/ns/net"

    def call(self, *words: str) -> None:
        """Runs a command on the machine. Raises an error if it fails."""
        subprocess.run([*self.on, *words], check=True, stdin=subprocess.DEVNULL, capture_output=True)


def can_be_made() -> bool:
    """Returns whether machines can be made here: by root, with the programs that this needs, on a system that allows
    it."""
    if os.geteuid() != 0 or not all(map(shutil.which, ("ip", "unshare", "nsenter"))):
        return False
    return subprocess.run(["unshare", "--net", "true"], check=False, capture_output=True).returncode == 0


@contextmanager
def two() -> Iterator[tuple[Machine, Machine]]:
    """Yields the teacher's machine and that of the students, joined by a cable. Each lasts as long as a sleeping
    process, which is killed at the end. Raises an error if they can't be made."""
    holders = [subprocess.Popen(["unshare", "--net", "sh", "-c", "echo; exec sleep 100000"], stdout=subprocess.PIPE) for _ in range(2)]
    try:
        for it in holders:
            assert it.stdout is not None
            it.stdout.readline()  # This line comes from the shell, which is in its own namespace already.
        teachers, students = (Machine(it.pid) for it in holders)
        subprocess.run(["ip", "link", "add", "cable", "netns", str(teachers.process), "type", "veth", "peer", "name", "cable",
                        "netns", str(students.process)], check=True, capture_output=True)
        for machine, address in ((teachers, TEACHERS), (students, STUDENTS)):
            machine.call("ip", "address", "add", f"{address}/24", "dev", "cable")
            for device in ("lo", "cable"):
                machine.call("ip", "link", "set", device, "up")
        yield teachers, students
    finally:
        for it in holders:
            it.kill()
            it.wait()
            if it.stdout is not None:
                it.stdout.close()
