"""Measures a class of many networks on this machine, with a bot for each student.

    python3 -B -m bench.whole_class [--networks 20] [--each 15] [--seconds 30] [--door]

Each bot has its own connection, in one of eight processes. A bot looks at its node ten times a second, like the
students' bot, and asks for the enabled rule. Steps are closed each second, and all registers are drawn anew every ten
seconds. Prints how long a hello and a move take, and how much memory and processor time the class takes. A page of
memory that several processes share counts in parts. With `--door`, each bot comes through a door, from its own address.
"""
import argparse
import csv
import json
import multiprocessing
import os
import re
import socket
import subprocess
import sys
import tempfile
import threading
import time
from dataclasses import replace
from pathlib import Path
from statistics import quantiles

from bench.clients import free_port
from bench.common import TOP, refuse
from classroom.client import Client, Closed, Denied, Refused, Slip, connect, door_of, tls
from classroom.core.folders import Record

PROCESSES = 8
LOOKS, SHAKES = 0.1, 10.0  # seconds between two looks of a bot, and between two shakes
LIMIT = 600.0  # seconds in which all bots have to be greeted
TICKS = os.sysconf("SC_CLK_TCK")
Times = list[tuple[str, float]]  # `hello` or `move`, and the seconds that it took


def connection_to(slip: Slip, number: int) -> socket.socket:
    """Returns a connection to the port of a slip, before the hello. If the slip has a door, connects through it without
    checking its certificate. There, the connection comes from an address of this machine that depends on `number`,
    because a door limits the connections of each address. Raises `Closed` or `OSError` if no connection can be made."""
    if not slip.door:
        return connect(slip.port, LIMIT)
    plain = socket.create_connection(door_of(slip.door), LIMIT, (f"127.1.{number // 250}.{number % 250 + 1}", 0))
    it: socket.socket = tls().wrap_socket(plain, server_hostname=slip.network)
    return it


def greet(slip: Slip, number: int) -> Client:
    """Returns a connection by a slip after its hello. If that fails, as while no seat is free, tries again each second
    without end, like a bot. Through a door, the student connects from an address that `number` determines. Raises
    `Denied` if the server denies the hello."""
    while True:
        try:
            return Client(slip.port, slip.name, slip.key, limit=LIMIT, connection=connection_to(slip, number))
        except (Refused, Closed, OSError):
            time.sleep(1)


def play(slip: Slip, number: int, times: Times) -> None:
    """Plays the first node of a slip until the connection ends, as it does when the class is over. Appends to `times`
    the seconds that each hello and each move took, also those of a denied move. `number` determines the address from
    which the student connects through a door."""
    begun = time.perf_counter()
    me = greet(slip, number)
    times.append(("hello", time.perf_counter() - begun))
    try:
        while True:
            look = me.look(slip.nodes[0])
            if look.rule and not look.chosen:
                begun = time.perf_counter()
                try:
                    me.move(look)
                except Denied:  # A step was closed in between.
                    pass
                times.append(("move", time.perf_counter() - begun))
            time.sleep(LOOKS)
    except Closed:
        pass


def play_all(slips: list[tuple[int, Slip]], every: "multiprocessing.Queue[int]", results: "multiprocessing.Queue[Times]") -> None:
    """Plays for the students of these slips, each in a thread. Puts the number of slips into `every` after all hellos,
    and the times of hellos and moves into `results` at the end."""
    times: Times = []
    threads = [threading.Thread(target=play, args=(slip, number, times)) for number, slip in slips]
    for thread in threads:
        thread.start()
    while sum(what == "hello" for what, _ in [*times]) < len(slips):  # a copy, since the threads append to `times` meanwhile
        time.sleep(0.05)
    every.put(len(slips))
    for thread in threads:
        thread.join()
    results.put(times)


def memory_and_time(process: int) -> tuple[float, float]:
    """Returns the memory of a process in megabytes, and the processor time that it has used, in seconds."""
    folder = Path(f"/proc/{process}")
    shared = re.search(r"(?m)^Pss: +(\d+) kB$", (folder / "smaps_rollup").read_text(encoding="ascii"))
    # In `stat` (proc(5)), the fields 14 and 15 are the times in user and kernel mode. The part after the name begins with the field 3.
    times = (folder / "stat").read_text(encoding="utf-8").rpartition(") ")[2].split()[11:13]
    return (int(shared[1]) / 1024 if shared else 0.0), sum(map(int, times)) / TICKS


def processes(folder: Path) -> dict[str, list[int]]:
    """Returns the numbers of the processes of the class in a folder, by their roles. The folder has the file
    `class.json`, and a folder for the run of each network."""
    kept = json.loads((folder / "class.json").read_text(encoding="utf-8"))
    records = [record for run in sorted(folder.iterdir()) if (record := Record.read(run)) is not None]
    found = {"servers": [it.server.number for it in records], "desks": [it.run.number for it in records], "the class's desk": [kept["desk"]["number"]]}
    if kept["door"]:
        found["the door"] = [json.loads(Path(kept["door"], "door.json").read_text(encoding="utf-8"))["process"]["number"]]
    return found


def make_labs(room: Path, networks: int, each: int, door: str) -> tuple[list[Path], list[tuple[int, Slip]]]:
    """Makes the labs of a class with `networks` networks, and `each` students in each, in the folder `room`. Returns
    their files, and all slips, each with a number. `door` is the address of a door, or an empty text if there is
    none."""
    (room / "names.txt").write_text("".join(f"Student {number}\n" for number in range(networks * each)), encoding="ascii")
    words = ["--groups", str(networks), "--start", "hurt", *(["--door", door] if door else [])]
    subprocess.run([sys.executable, TOP / "class", "new", room / "big.toml", "--students", room / "names.txt", *words], check=True, stdout=subprocess.DEVNULL)
    with (room / "big-slips.csv").open(encoding="utf-8", newline="") as it:
        slips = [Slip.read(row["file"]) for row in csv.DictReader(it)]
    return [room / f"big-{number}.toml" for number in range(1, networks + 1)], [*enumerate(slips)]


def measure(desk: "subprocess.Popen[str]", folder: Path, seconds: float) -> None:
    """Shakes the class in a folder every SHAKES seconds for `seconds` seconds, by typing at its desk, which is the
    process `desk`. Prints the memory and processor time of the class's processes."""
    assert desk.stdin is not None
    every = processes(folder)
    before = {name: sum(memory_and_time(it)[1] for it in numbers) for name, numbers in every.items()}
    begun = time.monotonic()
    while time.monotonic() - begun < seconds:
        desk.stdin.write("shake all\n")
        desk.stdin.flush()
        time.sleep(min(SHAKES, seconds))
    taken = time.monotonic() - begun
    for name, numbers in every.items():
        memory, processor = (sum(values) for values in zip(*map(memory_and_time, numbers)))
        print(f"{name}: {len(numbers)}, {memory:.0f} MB, {100 * (processor - before[name]) / taken:.1f} % of a processor", flush=True)


def main() -> None:
    """Starts a class with the networks and students that the arguments ask for, measures it, prints the results, and
    ends it. Exits with an error line if there are less than two networks."""
    parser = argparse.ArgumentParser(prog="bench.whole_class")
    parser.add_argument("--networks", type=int, default=20)
    parser.add_argument("--each", type=int, default=15)
    parser.add_argument("--seconds", type=float, default=30.0)
    parser.add_argument("--door", action="store_true")
    words = parser.parse_args()
    if words.networks < 2:
        refuse("a class has two networks or more")
    with tempfile.TemporaryDirectory() as name:
        room, port = Path(name), free_port()
        labs, slips = make_labs(room, words.networks, words.each, f"127.0.0.1:{port}" if words.door else "")
        more = ["--door", str(port)] if words.door else []
        with (room / "prints").open("w", encoding="utf-8") as prints:
            desk = subprocess.Popen([sys.executable, TOP / "class", "run", *labs, "--into", room / "runs", "--page", "--close", "every:1",
                                     "--typed", *more], stdin=subprocess.PIPE, stdout=prints, stderr=prints, text=True)
        try:
            run_class(desk, room, slips, words.seconds)
        finally:
            desk.terminate()
            desk.wait()


def run_class(desk: "subprocess.Popen[str]", room: Path, slips: list[tuple[int, Slip]], seconds: float) -> None:
    """Starts all bots, measures for `seconds` seconds, ends the class, and prints how long hellos and moves took. Exits
    with the class's output if the class ends before it serves. `desk` is the process of the class's desk, the folder
    `room` has the class, and each slip has the number of its student."""
    begun = time.monotonic()
    while "\ncommands: " not in (room / "prints").read_text(encoding="utf-8"):
        if desk.poll() is not None:
            refuse((room / "prints").read_text(encoding="utf-8"))
        time.sleep(0.1)
    print(f"all networks serve after {time.monotonic() - begun:.1f} seconds", flush=True)
    folder, = (file.parent for file in (room / "runs").glob("*/class.json"))
    # A server uses another port than its slips name if that one is taken. So the ports are those of the servers.
    ports = {run.name: record.port for run in folder.iterdir() if (record := Record.read(run)) is not None}
    slips = [(number, replace(slip, port=ports[slip.network])) for number, slip in slips]
    every: "multiprocessing.Queue[int]" = multiprocessing.Queue()
    results: "multiprocessing.Queue[Times]" = multiprocessing.Queue()
    crowds = [multiprocessing.Process(target=play_all, args=(slips[at::PROCESSES], every, results)) for at in range(PROCESSES)]
    for each in crowds:
        each.start()
    print(f"{sum(every.get(timeout=LIMIT) for _ in crowds)} bots are greeted", flush=True)
    measure(desk, folder, seconds)
    desk.terminate()
    times = [row for _ in crowds for row in results.get(timeout=LIMIT)]
    for what in ("hello", "move"):
        cuts = quantiles([1000 * taken for kind, taken in times if kind == what], n=100)
        print(f"{what}: {sum(kind == what for kind, _ in times)}, half of them within {cuts[49]:.1f} ms, 99 of 100 within {cuts[98]:.1f} ms")


if __name__ == "__main__":
    main()
