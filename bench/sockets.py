"""Compares the speed of requests over sockets: this program, the one that is written by hand, and an echo server.

    python3 -B -m bench.sockets [BURST]

Eight clients send bursts of BURST lines (1), each after the replies to the last one. The echo server answers each
line with one write of the same length as a reply to `see`. Each server is measured 21 times in turn, and the
medians are printed: the requests per second, which the clients in Python limit, and the server's own processor
time.
"""
import os
import subprocess
import sys
import tempfile
from dataclasses import dataclass
from pathlib import Path
from statistics import median

from bench.clients import CONNECTIONS, free_port, time_clients
from bench.common import PROGRAM, TYPED, Words, built, built_in, refuse

REQUESTS = 6_000
ROUNDS = 21


@dataclass(frozen=True)
class Served:
    """A measurement: requests per second, microseconds of the server's processor time per request, and the reply."""

    rate: float
    used: float
    reply: bytes


def measure(words: Words, port: int, burst: int) -> Served:
    """Starts a server by the command line `words`, and sends it the requests of all clients at its port, in bursts of
    `burst`. Returns the measurement. Exits if the server fails or the replies differ."""
    with subprocess.Popen(words, stdout=subprocess.PIPE) as server:
        assert server.stdout is not None
        server.stdout.readline()
        taken, reply = time_clients(port, burst, REQUESTS // burst)
        server.stdout.read()
        _, status, used = os.wait4(server.pid, 0)
        # Popen's own wait would find no process any more, so it gets the status here.
        server.returncode = os.waitstatus_to_exitcode(status)
    if server.returncode != 0 or reply is None:
        refuse(f"{words[0]}: the replies differ, or its status isn't 0 but {server.returncode}")
    count = CONNECTIONS * REQUESTS
    return Served(count / taken, 1e6 * (used.ru_utime + used.ru_stime) / count, reply)


def servers(lab: Path) -> dict[str, tuple[Words, int]]:
    """Returns the command line and the port of each server for the lab in the file `lab`, by the server's name."""
    ports, many = [free_port() for _ in range(3)], str(CONNECTIONS)
    return {
        "an echo": ([TYPED, "echo", str(ports[0]), many], ports[0]),
        "typed, by hand": ([TYPED, "serve", lab, str(ports[1]), many], ports[1]),
        "ours": ([PROGRAM, "serve", lab, str(ports[2]), many], ports[2]),
    }


def main() -> None:
    """Measures the servers in turn, ROUNDS times each, and prints the medians. Exits with an error line if their
    replies differ."""
    burst = int(sys.argv[1]) if len(sys.argv) > 1 else 1
    built(PROGRAM), built(TYPED)
    figures: dict[str, list[Served]] = {}
    with tempfile.TemporaryDirectory() as folder:
        lab = Path(folder, "lab")
        lab.write_text(built_in(sessions=CONNECTIONS), encoding="ascii")
        for _ in range(ROUNDS):
            for name, (words, port) in servers(lab).items():
                figures.setdefault(name, []).append(measure(words, port, burst))
    if len({one.reply for all_rounds in figures.values() for one in all_rounds}) != 1:
        refuse("the replies differ")
    for name, all_rounds in figures.items():
        rate, used = median(one.rate for one in all_rounds), median(one.used for one in all_rounds)
        print(f"{name}: {rate:,.0f} a second, {used:.2f} us of processor time each")


if __name__ == "__main__":
    main()
