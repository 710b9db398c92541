"""Compares the speed of `serve` and of the host, with eight connections each.

    python3 -B -m bench.host

Each answers 30,000 requests per connection, in bursts of 100. Both are timed five times in turn, from the first
request to the last reply, and the medians are printed. The replies have to be the same.
"""
import re
import socket
import statistics
import subprocess
import tempfile
from collections.abc import Callable
from pathlib import Path
from typing import Optional

from bench.clients import BYE, CONNECTIONS, HELLO, free_port, time_clients
from bench.common import HOST, PROGRAM, Words, built, built_in, refuse

BURSTS, BURST, ROUNDS = 300, 100, 5
Timed = tuple[float, Optional[bytes]]  # the seconds that the clients needed, and the reply that all of them got, or None


def time_serve(lab: Path) -> Timed:
    """Returns the seconds that the clients need with `mml serve` and the lab in the file `lab`. Also returns the reply
    that all of them got, or None if the replies differ."""
    port = free_port()
    words: Words = [built(PROGRAM), "serve", lab, str(port), str(CONNECTIONS)]
    with subprocess.Popen(words, stdout=subprocess.PIPE) as server:
        assert server.stdout is not None
        server.stdout.readline()
        done = time_clients(port, BURST, BURSTS)
        server.stdout.read()
        return done


def time_host(lab: Path) -> Timed:
    """Returns the seconds that the clients need with the host and the lab in the file `lab`. Also returns the reply
    that all of them got, or None if the replies differ. The teacher's bye at the desk ends the host."""
    with subprocess.Popen([built(HOST), "host", lab, "0", "0"], stdout=subprocess.PIPE) as server:
        assert server.stdout is not None
        port, desk = map(int, re.findall(rb"\d+", server.stdout.readline()))
        done = time_clients(port, BURST, BURSTS)
        with socket.create_connection(("127.0.0.1", desk)) as it:
            it.sendall(HELLO + BYE)
            it.makefile("rb").read()
        server.stdout.read()
        return done


def main() -> None:
    """Times `serve` and the host in turn, and prints the requests per second by the medians. Exits with an error line
    if the replies differ."""
    ways: dict[str, Callable[[Path], Timed]] = {"serve": time_serve, "host": time_host}
    times: dict[str, list[float]] = {name: [] for name in ways}
    seen: set[Optional[bytes]] = set()
    with tempfile.TemporaryDirectory() as folder:
        lab = Path(folder, "lab")
        lab.write_text(built_in(sessions=CONNECTIONS + 1), encoding="ascii")
        for _ in range(ROUNDS):
            for name, way in ways.items():
                taken, reply = way(lab)
                times[name].append(taken)
                seen.add(reply)
    if len(seen) != 1 or None in seen:
        refuse("the replies differ")
    serve, host = (statistics.median(it) for it in times.values())
    requests = CONNECTIONS * BURSTS * BURST
    print(f"{requests} views: serve {requests / serve:,.0f} a second, host {requests / host:,.0f}, {serve / host:.2f}")


if __name__ == "__main__":
    main()
