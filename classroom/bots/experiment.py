"""`./class experiment`: measures how many moves, closes and rounds runs take, and compares them with the proved bounds.

A *daemon* decides which nodes move in each step, and a *close* is the end of a step. A *setting* is a family of
networks with a size, a daemon and a start, and a run is a setting with a seed. The *table* is the file of `--csv`, with
a *row* for each run, and a *part* is one machine's share of the runs. The *script* of a run is a list of request lines
that repeats it.
"""
from __future__ import annotations

import argparse
import concurrent.futures
import contextlib
import csv
import ctypes
import errno
import io
import multiprocessing
import os
import re
import signal
import statistics
import sys
import time
from collections.abc import Iterator
from dataclasses import asdict, fields
from pathlib import Path

from classroom.bots import chart, parts
from classroom.bots.measuring import SIZED, Row, Setting, drawn, runs
from classroom.core import lab as labs
from classroom.core import bounds, limits, networks
from classroom.core.counts import plural, positive
from classroom.core.program import Fault, host
from classroom.core.statuses import FAILED, WARNED
from classroom.pages import colours
from classroom.run.daemons import Daemon, daemons

COLUMNS = [each.name for each in fields(Row)]
CHUNK = 20  # the most runs of a task
CONTINUES, ANOTHER_TABLE = " to continue this table", "name another file by --csv to begin a new table"
FULL = (errno.ENOSPC, errno.EDQUOT)  # the errors of a full disk
DIES = 1  # prctl's PR_SET_PDEATHSIG
Key = tuple[str, int, str, str, int]  # what identifies a run: its family, nodes, daemon, start and seed


def sizes(word: str) -> range:
    """Returns the numbers of nodes in an argument: `A..B`, `A..B/STEP`, or one number. Raises `ArgumentTypeError` for
    any other text, and for a number above the limit of nodes. If the program isn't built yet, the limit isn't known,
    and `settings` checks it."""
    found, known = re.fullmatch(r"(?P<least>\d+)(?:\.\.(?P<most>\d+))?(?:/(?P<step>\d+))?", word), limits.known()
    least, most = (int(found["least"]), int(found["most"] or found["least"])) if found else (0, 0)
    if not found or not 1 <= least <= most <= (known.nodes if known else most) or found["step"] == "0":
        raise argparse.ArgumentTypeError(f"{word}: write a number of nodes, A..B or A..B/STEP, with numbers from 1{f' to {known.nodes}' if known else ' on'}")
    return range(least, most + 1, int(found["step"] or 1))


def add_words(words: argparse.ArgumentParser) -> None:
    """Adds the arguments of `experiment` to its parser."""
    words.add_argument("--family", default="path,cycle,random", metavar="F,..",
                       help=f"the networks: {networks.NAMED}; random without numbers has 1.5 links for each node (path,cycle,random)")
    words.add_argument("--nodes", type=sizes, default=range(4, 17), metavar="A..B", help="the numbers of nodes; with A..B/STEP each STEP-th number (4..16)")
    words.add_argument("--daemon", type=daemons, default=[Daemon("central"), Daemon("synchronous")], metavar="D,..",
                       help="central, synchronous and random:P; schedule and adversary, which make runs long; every:S and when-idle:S, under which "
                       "a node asks after one second on average (central,synchronous)")
    words.add_argument("--start", choices=networks.STARTS, default="random", help=f"{networks.STARTED} (random)")
    words.add_argument("--runs", type=positive, default=20, metavar="K",
                       help="the number of runs for each family, size and daemon (20)")
    words.add_argument("--seed", type=int, default=1, help="the seed of the first run; each further run has the next one (1)")
    words.add_argument("--csv", default="experiment.csv", metavar="FILE",
                       help="the table, one row for each run; if the file exists, the missing runs are added")
    words.add_argument("--plot", metavar="FILE.svg", help="draw a chart")
    words.add_argument("--dark", action="store_true", help="draw the chart in the colours of a dark page")
    parts.add_words(words, "runs", "tables")
    words.add_argument("--at-once", type=positive, help="the number of processes (as many as processors)")
    words.set_defaults(work=experiment)


def settings(words: argparse.Namespace) -> list[Setting]:
    """Returns the settings of each family, size and daemon in the arguments. Leaves out sizes for which a family has no
    network. Raises `Fault` if no setting is left, if a size is above the limit, or if a family or daemon can't be
    used."""
    for how in words.daemon:
        if how.kind == "by-hand":
            raise Fault("--daemon by-hand: in an experiment nobody closes steps by hand; name another daemon")
    networks.within(words.nodes[-1])  # Raises `Fault` if the largest size is above the limit.
    found = []
    for family in words.family.split(","):
        for nodes in words.nodes if not family.startswith(SIZED) else [0]:  # The name of a SIZED family has the size, so 0 is only a placeholder.
            spelled = f"random:{nodes}:{links_of(nodes)}" if family == "random" else family
            try:
                # The network of one run shows whether the family has this size, and its number of nodes.
                network = drawn(Setting(spelled, nodes, words.daemon[0], words.start), words.seed)
            except networks.UnknownFamily:
                raise
            except Fault:
                if family.startswith(SIZED):
                    raise
                continue  # The family has no network of this size.
            found += [Setting(spelled, len(network.nodes), how, words.start) for how in words.daemon]
    if not found:
        raise Fault("--family and --nodes: none of these families has a network of one of these sizes; name other families or sizes")
    return found


def links_of(nodes: int) -> int:
    """Returns the number of links of a random network with `nodes` nodes. The number is three for each two nodes, but
    at least that of a tree, and at most that of all possible links."""
    return max(nodes - 1, min(3 * nodes // 2, nodes * (nodes - 1) // 2))


def row_of(words: dict[str, str]) -> Row:
    """Returns the row whose cells have the texts in `words`, by the names of their columns. Raises `KeyError` if a
    column is missing, and `ValueError` or `TypeError` if a number isn't one."""
    numbers = {name: int(words[name]) for name in ("nodes", "links", "seed", "moves", "closes", "rounds")}
    return Row(family=words["family"], daemon=words["daemon"], start=words["start"], stable=words["stable"] == "true", **numbers)


def read_rows(path: Path) -> list[Row]:
    """Returns the rows of a table, or none if the file doesn't exist. Removes an incomplete last line from the file.
    Raises `Fault` if the file isn't the table of an experiment."""
    if not path.exists():
        return []
    text = path.read_text(encoding="utf-8")
    whole = text[:text.rfind("\n") + 1]
    reader = csv.DictReader(io.StringIO(whole))
    if whole and reader.fieldnames != COLUMNS:
        raise Fault(f"{path}: this file isn't a table of class experiment, so it isn't changed: name another file")
    try:
        rows = [row_of(each) for each in reader]
    except (ValueError, TypeError, KeyError):
        raise Fault(f"{path}: line {reader.line_num} isn't a row of a table of class experiment: delete the line, so that its run is measured again") from None
    if whole != text:
        path.write_text(whole, encoding="utf-8")
    return rows


def key(row: Row) -> Key:
    """Returns the values that identify the run of a row in a table."""
    return row.family, row.nodes, row.daemon, row.start, row.seed


def line_of(row: Row) -> str:
    """Returns a row as a line of the table, with its newline."""
    values = [str(value).lower() if isinstance(value, bool) else str(value) for value in asdict(row).values()]
    return ",".join(values) + "\n"


def follow_parent() -> None:
    """Makes this process, a worker that measures runs, end together with its parent process, and ignore interrupts."""
    ctypes.CDLL(None).prctl(DIES, signal.SIGKILL, 0, 0, 0)
    signal.signal(signal.SIGINT, signal.SIG_IGN)


def measure(tasks: list[tuple[Setting, list[int]]], at_once: int) -> Iterator[tuple[Row, bytes]]:
    """Measures the runs of all tasks in `at_once` processes. A task is a setting and the seeds of its runs. Yields each
    row as its task ends, with the run's script if the run exceeds a bound, and otherwise with no bytes. Kills the
    processes if the caller stops early. Raises the `Fault` of a task that fails."""
    context = multiprocessing.get_context("fork")
    with concurrent.futures.ProcessPoolExecutor(at_once, context, follow_parent) as pool:
        going = [pool.submit(runs, *task) for task in tasks]
        try:
            for each in concurrent.futures.as_completed(going):
                yield from each.result()
        except BaseException:
            pool.shutdown(wait=False, cancel_futures=True)
            for child in multiprocessing.active_children():
                child.kill()
            raise


def save_counterexample(path: Path, row: Row, script: bytes) -> Path:
    """Saves a run that exceeds a proved bound: its lab, script and row. Returns its folder, which is in a folder beside
    the table at `path`. Raises `OSError` if a file can't be written."""
    folder = path.with_name(f"{path.stem}-broken") / f"{row.family.replace(':', '-')}-{row.nodes}-{row.daemon.replace(':', '-')}-{row.seed}"
    folder.mkdir(parents=True, exist_ok=True)
    how = Daemon.of(row.daemon)
    (folder / "lab.toml").write_text(labs.text(drawn(Setting(row.family, row.nodes, how, row.start), row.seed)), encoding="utf-8")
    (folder / "script").write_bytes(script)
    (folder / "row.csv").write_text(",".join(COLUMNS) + "\n" + line_of(row), encoding="utf-8")
    return folder


class Progress:
    """The line on a terminal that shows how many runs are done."""

    def __init__(self, of: int) -> None:
        """Begins to count. `of` is the number of runs in all."""
        self.of, self.done, self.begun, self.due = of, 0, time.monotonic(), 0.0
        self.shown = sys.stderr.isatty()

    def advance(self) -> None:
        """Counts one more run. On a terminal, shows the progress, at most twice a second and at the end."""
        self.done += 1
        now = time.monotonic()
        if self.shown and (now >= self.due or self.done == self.of):
            self.due = now + 0.5
            rate = self.done / max(now - self.begun, 0.01)
            print(f"\r{self.done} of {self.of} runs done, {rate:.0f} a second  ", end="\n" if self.done == self.of else "", file=sys.stderr, flush=True)


def table(rows: list[Row]) -> str:
    """Returns the text that is printed about the runs in `rows`. For each family, daemon and number of nodes, a line
    has the number of runs, and the median, maximum and bound of the moves and of the rounds. For each family and
    daemon, one more line names the runs that came closest to their bounds."""
    lines = [f"{'family':10} {'daemon':14} {'nodes':>5} {'runs':>6}  moves: median, greatest, bound  rounds: median, greatest, bound"]
    groups: dict[tuple[str, str], list[Row]] = {}
    for row in rows:
        groups.setdefault((row.family.partition(":")[0], row.daemon), []).append(row)
    for (family, daemon), own in groups.items():
        for nodes in sorted({row.nodes for row in own}):
            sized = [row for row in own if row.nodes == nodes]
            most = max((bounds.of(row.nodes, row.links) for row in sized), key=lambda each: each.moves)
            moves, rounds = spread([row.moves for row in sized], most.moves), spread([row.rounds for row in sized], most.rounds)
            lines.append(f"{family:10} {daemon:14} {nodes:5} {len(sized):6}  {moves:31}  {rounds}")
        lines.append(closest(family, daemon, own))
    return "\n".join(lines)


def spread(counts: list[int], bound: int) -> str:
    """Returns the median and the maximum of some counts, and their bound, as text."""
    return f"{statistics.median(counts):>13g} {max(counts):9} {bound:6}"


def closest(family: str, daemon: str, own: list[Row]) -> str:
    """Returns the line about the runs that came closest to the bounds of their networks. `own` are all runs of one
    family under one daemon."""
    (_, by_moves, moves, most_moves), (_, by_rounds, rounds, most_rounds) = chart.closest_to_bounds(own)
    return (f"{family:10} {daemon:14} closest to the bounds: {moves} of at most {most_moves} moves ({by_moves.nodes} nodes, seed {by_moves.seed}); "
            f"{rounds} of at most {most_rounds} rounds ({by_rounds.nodes} nodes, seed {by_rounds.seed})")


def make_table(path: Path) -> None:
    """Writes a table that has only the names of its columns, if the file doesn't exist or is empty. Raises `OSError` if
    that fails."""
    if not path.exists() or path.stat().st_size == 0:
        path.write_text(",".join(COLUMNS) + "\n", encoding="utf-8")


def key_of(it: Setting, seed: int) -> Key:
    """Returns the values that identify a run in a table, from its setting and its seed, before it is measured."""
    return it.family, it.nodes, it.daemon.spelled(), it.start, seed


def write_sorted(path: Path, rows: list[Row]) -> None:
    """Replaces the table at `path` by one with these rows, sorted by the values that identify their runs. Raises
    `OSError` if that fails, and leaves the old table unchanged."""
    new = path.with_name(f"{path.name}.new")
    new.write_text(",".join(COLUMNS) + "\n" + "".join(map(line_of, sorted(rows, key=key))), encoding="utf-8")
    new.replace(path)


def joined(table: Path, others: list[Path]) -> dict[Key, Row]:
    """Returns the rows of a table, which may be missing, and of the tables `others`, by the values that identify their
    runs. Raises `Fault` if one of `others` is missing, if a file isn't a table, or if two tables differ about the same
    run."""
    found: dict[Key, tuple[Row, Path]] = {key(row): (row, table) for row in read_rows(table)}
    for file in others:
        if not file.exists():
            raise Fault(f"{file}: there is no such file; --merge needs the tables of all parts", FAILED)
        for row in read_rows(file):
            first, where = found.setdefault(key(row), (row, file))
            if first != row:
                raise Fault(f"{file}: the table {where} has different numbers for the same run. Delete the row of this run in both tables, and type "
                            f"the command that made {file} again: it measures the run anew. The row in {file}: {line_of(row).strip()}", FAILED)
    return {its: row for its, (row, _) in found.items()}


def merge(words: argparse.Namespace, asked: set[Key]) -> int:
    """Joins the table with those that `--merge` names, and writes the joined table. Prints the result and draws the
    chart of the runs of the arguments, which `asked` identifies. Returns the exit status, which is WARNED if one of
    these runs is missing, or if any run exceeds a bound. Raises `Fault` if a file is missing, isn't a table or can't be
    written, or if two tables differ about the same run."""
    rows = joined(Path(words.csv), [*map(Path, words.merge)])
    with naming_file(words.csv, "", "name another file by --csv, and if this one has rows already, name it by --merge"):
        write_sorted(Path(words.csv), list(rows.values()))
    broken = [row for row in rows.values() if row.exceeds_bounds()]
    own = sorted((row for row in rows.values() if key(row) in asked), key=key)
    print_results(own, len(asked), words, [f"{words.csv}: {line_of(row).strip()}" for row in broken])
    return WARNED if broken or len(own) < len(asked) else 0


def missing(every: list[Setting], seeds: range, done: set[Key]) -> list[tuple[Setting, list[int]]]:
    """Returns the runs that aren't in the table yet as tasks, each a setting and at most CHUNK seeds. Tasks of large
    networks come first. `done` identifies the runs in the table."""
    tasks = []
    for it in sorted(every, key=lambda setting: -setting.nodes):
        more = [seed for seed in seeds if key_of(it, seed) not in done]
        tasks += [(it, more[first:first + CHUNK]) for first in range(0, len(more), CHUNK)]
    return tasks


def print_results(own: list[Row], asked: int, words: argparse.Namespace, broken: list[str]) -> None:
    """Prints the result of the runs in the rows `own`, and whether all runs are within the proved bounds. Draws the
    chart if the arguments ask for one. `asked` is the number of runs in all. `broken` has for each run that exceeds a
    bound its folder, or after a merge its line of the table. Raises `Fault` if the chart can't be written."""
    if own:
        print(table(own))
    print(f"WARNING: {plural(len(broken), 'run')} exceeded a proved bound, which is an error of the program: please report it, with "
          f"{', '.join(broken)}" if broken else
          f"{len(own)} of {asked} runs are done, all within the proved bounds; table: {words.csv}")
    if own and words.plot:
        with naming_file(words.plot, "", "name another file by --plot"):
            Path(words.plot).write_text(chart.chart(own, colours.DARK if words.dark else colours.LIGHT), encoding="utf-8")
        print(f"chart: {words.plot}")


@contextlib.contextmanager
def naming_file(file: str, effect: str, remedy: str) -> Iterator[None]:
    """Turns an `OSError` in the `with` block into a `Fault` that names the file and the remedy. If the disk is full,
    the fault also names another remedy: to make room and run the same command again. `effect` is added to that remedy:
    it says what the command then does, or is empty."""
    try:
        yield
    except OSError as error:
        room = f"make room on the disk and run the same command again{effect}, or " if error.errno in FULL else ""
        raise Fault(f"{file}: {error.strerror}; {room}{remedy}", 4) from None


def experiment(words: argparse.Namespace) -> int:
    """Measures the runs of the arguments that the table lacks, or with `--part` only those of that part. Prints the
    results, and draws the chart. With `--merge` measures nothing, and joins tables. After an interrupt, the table has
    the runs that were measured. Returns the exit status. Raises `Fault` if the program isn't built, the arguments can't
    be used, or a file can't be read or written."""
    host()
    every, path = settings(words), Path(words.csv)
    seeds = range(words.seed, words.seed + words.runs)
    order = [key_of(it, seed) for it in every for seed in seeds]
    if words.merge:
        return merge(words, set(order))
    asked = set(parts.of(order, words.part))
    rows = read_rows(path)
    done = {key(row) for row in rows}
    with naming_file(words.csv, CONTINUES, ANOTHER_TABLE):
        make_table(path)
    if asked & done:
        print(f"already in {path}, and not repeated: {plural(len(asked & done), 'run')}")
    tasks = missing(every, seeds, done | (set(order) - asked))  # The runs of other parts count as done.
    progress = Progress(sum(len(task[1]) for task in tasks))
    broken: list[str] = []
    interrupted = False
    try:
        with naming_file(words.csv, CONTINUES, ANOTHER_TABLE), path.open("a", encoding="utf-8") as it:
            for row, script in measure(tasks, words.at_once or os.cpu_count() or 1):
                rows.append(row)
                it.write(line_of(row))
                it.flush()
                if row.exceeds_bounds():
                    broken.append(str(save_counterexample(path, row, script)))
                progress.advance()
    except KeyboardInterrupt:
        interrupted = True
    with naming_file(words.csv, CONTINUES, ANOTHER_TABLE):
        write_sorted(path, rows)
    print_results(sorted((row for row in rows if key(row) in asked), key=key), len(asked), words, broken)
    if interrupted:
        print("interrupted: run the same command again to continue")
        return FAILED
    return WARNED if broken else 0
