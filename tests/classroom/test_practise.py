"""`./class practise`: a student practises alone, and printed lines explain denials and mistakes. Most tests run a bot
of `bots/faulty.py`, whose argument names the bot's mistake. With `right` it has none."""
from __future__ import annotations

import contextlib
import http.client
import json
import re
import subprocess
import sys
import time
import unittest
from pathlib import Path
from urllib.parse import urlsplit

from classroom.bots.conduct import MOST_BEHIND, Conduct
from classroom.client import Client, Closed, Denied, Slip
from classroom.core.program import TOP, call
from tests.classroom.help import EXAMPLES, LIMIT, InRoom, Rows, call_class

FAULTY = TOP / "tests/classroom/bots/faulty.py"


class OneConduct(unittest.TestCase):
    """The check of a program's requests, without a class."""

    def test_after_many_old_numbers_a_move_of_a_node_that_it_never_looked_at_is_no_error(self) -> None:
        """The program looks at node 1 in the configurations 1 and 2, and then keeps asking with the old number 1 until
        this is noted as a fault. After that, a move of node 9 raises no exception, and the first fault stays noted. The
        program pauses before each line (the last argument of `take`), which is right."""
        conduct = Conduct()
        for at in (1, 2):
            conduct.take({"do": "look", "node": 1}, {"ok": "look", "node": 1, "at": at}, True)
        for _ in range(MOST_BEHIND + 1):
            self.assertEqual(conduct.wrong, "")
            conduct.take({"do": "move", "node": 1, "at": 1}, {"deny": "guard"}, True)
        self.assertIn("which is 2", conduct.wrong)
        conduct.take({"do": "move", "node": 9, "at": 2}, {"deny": "guard"}, True)
        self.assertIn("which is 2", conduct.wrong)


class Practise(InRoom):
    """The subcommand."""

    def practises(self, *given: str | Path) -> subprocess.CompletedProcess[str]:
        """Runs `./class practise` with these arguments to its end. Returns its result."""
        return call_class("practise", *given, "--into", self.room / "runs")

    def folder(self, output: str) -> Path:
        """Returns the folder of an ended run, which is named in the run's output. Fails if none is named there."""
        found = re.search(r"(?m)^page: (\S+)/run.html; all lines and replies: (\S+)$", output)
        assert found is not None, output
        return Path(found[1])

    def test_a_right_bot_comes_to_a_stable_end(self) -> None:
        """The printed counts of moves and steps are those of the printed steps, and the journal passes the audit. The
        printed bounds are those of the grid's 6 nodes and 7 links."""
        done = self.practises(EXAMPLES / "bot.py", "--family", "grid:3x2", "--node", "2,5", "--daemon", "synchronous", "--seed", "4")
        self.assertEqual(done.returncode, 0, done.stdout + done.stderr)
        self.assertRegex(done.stdout, r"^network: grid:3x2, 6 nodes; start: hurt; daemon: synchronous; your nodes: 2, 5\n")
        told = re.search(r"(?m)^the network is stable; pairs: (.*); (\d+) moves, (\d+) steps? and (\d+) rounds? "
                         r"\(at most 32 moves and 12 rounds, as is proved\)$", done.stdout)
        assert told is not None, done.stdout
        steps = re.findall(r"(?m)^configuration \d+: (.*); ", done.stdout)
        self.assertEqual(len(steps), int(told[3]))
        self.assertEqual(sum(len(step.split(", ")) for step in steps), int(told[2]))
        self.assertLessEqual(int(told[4]), int(told[3]))
        folder = self.folder(done.stdout)
        answer = call("audit", folder / "lab.toml", folder / "journal")
        self.assertRegex(answer.output, f"^ok: .* configuration {told[3]}, stable$")
        self.assertIn("</html>", (folder / "run.html").read_text(encoding="utf-8"))

    def test_a_denial_is_explained_and_a_run_without_a_bot_is_given_up(self) -> None:
        """The bot asks for a marriage that is denied, and ends. The run then names the move for which it waits."""
        done = self.practises(f"python3 {FAULTY} marries-anyone", "--family", "path", "--nodes", "4", "--node", "1,2,3,4",
                              "--start", "clean", "--daemon", "by-hand")
        self.assertEqual(done.returncode, 5, done.stdout + done.stderr)
        self.assertIn("\nyou: move at node 1 by marriage with 2 is denied as guard, clause 4: the guard of this rule does not hold; "
                      "node 1 has p null and m false; its neighbours: 2 (p null, m false); seduction would be granted there now; "
                      "a second program with the same rules, which doesn't decide the result, explains: p of node 2 isn't 1, but null; "
                      'a correct bot would send {"at":0,"do":"move","node":1,"rule":"seduction"}\n', done.stdout)
        self.assertIn("\nyou: the bot ended by itself, with status 1\n", done.stdout)
        self.assertRegex(done.stdout, r"(?m)^the run is given up, since no bot is running any longer; it waits for seduction at node 1 \(you\), ")

    def test_with_the_default_options_the_student_s_nodes_need_all_four_rules(self) -> None:
        """The last line has the rules of the granted moves, and names no rule that was never asked for."""
        done = self.practises(EXAMPLES / "bot.py")
        self.assertEqual(done.returncode, 0, done.stdout + done.stderr)
        self.assertRegex(done.stdout, r"\nyou: \d+ granted moves \(update, marriage, seduction, abandonment\), \d+ denials?( \(.*\))?\n$")

    def test_a_class_can_be_played_to_its_end_by_requests_to_the_page_s_server(self) -> None:
        """The test sends the requests that the page would send, and asks for each enabled move. The last row has the
        reason for the end. `--page` is refused together with a bot."""
        self.assertIn("--page is for playing by hand", self.practises(EXAMPLES / "bot.py", "--page").stderr)
        going = subprocess.Popen(
            [sys.executable, TOP / "class", "practise", "--page", "--family", "path", "--nodes", "2", "--node", "1,2", "--start", "clean",
             "--into", self.room / "runs"], stdout=subprocess.PIPE, text=True)
        self.addCleanup(going.wait)
        self.addCleanup(going.kill)
        assert going.stdout is not None
        self.addCleanup(going.stdout.close)
        address = next(line for line in going.stdout if line.startswith("page to play on: ")).split()[-1]
        name, key = re.findall("=([^&]+)", address)  # The address ends with `#name=NAME&key=KEY`.
        rows = Rows(address.partition("#")[0], name, key)
        self.addCleanup(rows.connection.close)
        token, asked, answers = rows.next()["token"], set[tuple[int, int]](), []
        while "ended" not in (row := rows.next()):
            for look in row.get("nodes", []):
                # Asks only once. A row may be older than the last answer, and the class may have ended since then.
                if look["rule"] and not look["chosen"] and (row["at"], look["node"]) not in asked:
                    asked.add((row["at"], look["node"]))
                    answers.append(self.move(address, {"token": token, "node": look["node"], "at": row["at"], "rule": look["rule"]}
                                             | ({"with": look["pointing"][0]} if look["rule"] == "marriage" else {})))
        self.assertEqual(row, {"ended": "the class is over"})
        self.assertIn("move", answers)
        self.assertEqual(going.wait(LIMIT), 0)

    def move(self, address: str, asked: dict[str, object]) -> str:
        """Asks the page's server at an address for a move. `asked` has the values of the request. Returns `move` if it
        is granted, or the name of the denial."""
        parts = urlsplit(address)
        connection = http.client.HTTPConnection("127.0.0.1", parts.port or 0, timeout=LIMIT)
        with contextlib.closing(connection):
            connection.request("POST", "/move", json.dumps(asked), {"Host": parts.netloc})
            told = json.loads(connection.getresponse().read())
        return str(told.get("ok") or told.get("deny"))

    def test_the_last_line_has_the_bot_s_moves_denials_and_unused_rules(self) -> None:
        """The bot plays node 1 of a path of two nodes: it seduces node 2, and updates after node 2 has married it. A
        bot that sends lines without a pause may also be said to flood the server."""
        done = self.practises(f"python3 {FAULTY} floods", "--family", "path", "--nodes", "2", "--node", "1", "--start", "clean")
        self.assertEqual(done.returncode, 0, done.stdout + done.stderr)
        self.assertRegex(done.stdout, r"\nyou: 2 granted moves \(update, seduction\), \d+ denials?.*; rules that were never asked for: marriage, abandonment"
                                      r"(; the bot floods the server: it sends line after line .*)?\n$")

    def test_a_bot_that_never_pauses_is_said_to_flood_the_server(self) -> None:
        """Under this daemon nobody closes a step. So the run is given up when nothing has happened for 10 seconds, and
        the printed line has the reason."""
        done = self.practises(f"python3 {FAULTY} floods", "--family", "path", "--nodes", "3", "--node", "1", "--daemon", "by-hand", "--timeout", "10")
        self.assertEqual(done.returncode, 5, done.stdout + done.stderr)
        self.assertIn("; the bot floods the server: it sends line after line without a pause; a bot waits a tenth of a second when it has looked at all "
                      "its nodes\n", done.stdout)

    def test_a_malformed_line_is_explained_once_and_its_repetitions_are_counted(self) -> None:
        """The bot sends thirty such lines. The second line that is printed is for the tenth of them."""
        done = self.practises(f"python3 {FAULTY} quotes-numbers", "--nodes", "3")
        self.assertEqual(done.returncode, 0, done.stdout + done.stderr)
        lines = [line for line in done.stdout.splitlines() if "malformed" in line]
        self.assertEqual(len(lines), 3, lines)
        self.assertRegex(lines[0], r"^you: a line is refused as malformed: node is a string, not a whole number \(write \d, without quotes\); "
                                   r'the line is {"do": "look", "node": "\d"}$')
        self.assertEqual(lines[1], "you: this has happened 10 times so far: a line is refused as malformed: node is a string, not a whole number")
        self.assertIn(", 30 malformed lines", lines[2])

    def test_a_denial_is_explained_once_and_its_repetitions_are_counted(self) -> None:
        """The bot keeps asking with an `at` that has become stale. After the first denial, a line is printed for the
        10th, the 100th and so on."""
        done = self.practises(f"python3 {FAULTY} asks-always", "--nodes", "7", "--daemon", "central")
        self.assertEqual(done.returncode, 0, done.stdout + done.stderr)
        lines = [line for line in done.stdout.splitlines() if "stale" in line]
        self.assertGreater(len(re.findall("(?m)^configuration ", done.stdout)), 2, "too few steps for several stale values of `at`")
        self.assertRegex(lines[0], r"^you: move at node \d by \w+.* is denied as stale, clause 2: this is not the current configuration; "
                                   r"the request has `at` \d+, but the current configuration has the number \d+$")
        told = re.fullmatch(r"you: .*, \d+ denials? \(.*?(\d+) stale.*", lines[-1])
        assert told is not None, lines
        self.assertGreater(int(told[1]), 2)
        counts = [10 ** power for power in range(1, len(told[1]))]
        self.assertEqual(lines[1:-1], [f"you: this has happened {count} times so far: move is denied as stale, clause 2" for count in counts])

    def test_a_bot_that_never_connects_is_named_as_the_reason(self) -> None:
        """The bot only prints what looks like a reply, so its output isn't taken for a connection. The other nodes move
        first. Each step is closed when nothing has happened for half a second."""
        done = self.practises(f"python3 {FAULTY} pretends", "--timeout", "10")
        self.assertEqual(done.returncode, 5, done.stdout + done.stderr)
        self.assertRegex(done.stdout, r"(?m)^the run is given up, since nothing has happened for 10 seconds; it waits for \w+ at node \d \(you\).*; "
                                      r"you: the bot never connected to port \d+; "
                                      r"a second program with the same rules, which doesn't decide the result, explains: "
                                      r'a correct bot would send {"at":1?\d,"do":"move",.*}$')
        self.assertTrue(done.stdout.endswith("\nyou: 0 granted moves, 0 denials; rules that were never asked for: update, marriage, seduction, "
                                             "abandonment\n"), done.stdout)

    def test_all_bots_have_ended_before_record_and_page_are_written(self) -> None:
        """Writing the record and the page may take long, and nobody would answer a bot meanwhile. The code runs the
        subcommand with another `write_run`, which prints for each bot whether its process has ended."""
        given = ["practise", f"python3 {FAULTY} right", "--nodes", "3", "--into", str(self.room / "runs")]
        code = ("import sys; from classroom import words; from classroom.bots import bots, practise; kept = []; began = bots.RunningBot.__init__\n"
                "bots.RunningBot.__init__ = lambda self, *given: (kept.append(self), began(self, *given))[1]\n"
                "practise.write_run = lambda *_: print('ended', [each.process.poll() is not None for each in kept])\n"
                "sys.exit(words.main(sys.argv[1:]))")
        done = subprocess.run([sys.executable, "-c", code, *given], cwd=TOP, capture_output=True, text=True, check=False, timeout=LIMIT)
        self.assertEqual(done.returncode, 0, done.stdout + done.stderr)
        self.assertIn("\nended [True]\n", done.stdout)

    def test_two_bots_play_together_with_two_nodes_each(self) -> None:
        bot = f"python3 {FAULTY} right"
        done = self.practises(bot, bot, "--family", "star", "--nodes", "5", "--start", "random", "--daemon", "central")
        self.assertEqual(done.returncode, 0, done.stdout + done.stderr)
        self.assertRegex(done.stdout, r"; nodes of you-1: \d, \d; nodes of you-2: \d, \d\n")

    def test_without_a_bot_the_class_waits_for_the_student_s_own_program(self) -> None:
        """The test connects with the slip that the printed line names. A denial and a malformed line are explained as
        for a bot."""
        going = subprocess.Popen(
            [sys.executable, TOP / "class", "practise", "--family", "path", "--nodes", "2", "--node", "1", "--start", "clean",
             "--daemon", "central", "--into", self.room / "runs"], stdout=subprocess.PIPE, text=True)
        assert going.stdout is not None
        self.addCleanup(going.kill)
        lines = iter(going.stdout)
        told = next(line for line in lines if line.startswith("the class is at port "))
        found = re.fullmatch(r"the class is at port \d+; start your bot with the slip (\S+), or type requests by hand: "
                             r"python3 \S*classroom/client.py \1\n", told)
        assert found is not None, told
        slip = Path(found[1])
        nodes = Slip.read(slip).nodes
        with Client.from_slip(slip) as me:
            with self.assertRaises(Denied):
                me.look(2)
            me._socket.sendall(b'{"do":"look","node":"1"}\r\n')
            self.assertEqual(me._line(), b'{"refuse":"malformed"}')
            try:
                self.plays(me, nodes[0])
            except Closed:  # A stable class ends soon and answers nobody any more. Its last line has the reason of its end.
                pass
        rest = list(lines)
        self.assertEqual(going.wait(LIMIT), 0)
        going.stdout.close()
        self.assertTrue(any(line.startswith("you: look at node 2 is denied as not-owner, clause 1: you do not own this node") for line in rest), rest)
        self.assertIn("you: a line is refused as malformed: node is a string, not a whole number (write 1, without quotes); "
                      'the line is {"do":"look","node":"1"}\\r\n', rest)
        self.assertTrue(any(line.startswith("the network is stable; pairs: 1-2; ") for line in rest), rest)

    def plays(self, me: Client, node: int) -> None:
        """Asks for the enabled moves of a node until it has none and its `m` is true, but not longer than LIMIT
        seconds."""
        end = time.monotonic() + LIMIT
        while time.monotonic() < end:
            look = me.look(node)
            if look.rule is None and look.m:
                break
            if look.rule and not look.chosen:
                try:
                    me.move(look)
                except Denied as denied:  # A step was closed since the look.
                    self.assertEqual(denied.name, "stale")
            time.sleep(0.01)

    def test_wrong_arguments_are_refused_before_a_folder_is_made(self) -> None:
        rows: tuple[tuple[tuple[str | Path, ...], str], ...] = (
            (("no-such-program",), "no-such-program: there is no such program"),
            ((EXAMPLES / "bot.py", "--node", "9"), "--node 9: this network has only the nodes 1 to 7"),
            ((EXAMPLES / "bot.py", "--family", "ring"), "--family ring: there is no such family of networks"),
            ((EXAMPLES / "bot.py", "--daemon", "fair"), "'fair' isn't a daemon. The daemons are: central, "),
        )
        for given, why in rows:
            done = self.practises(*given)
            self.assertEqual(done.returncode, 1)
            self.assertIn(why, done.stderr)
            self.assertFalse((self.room / "runs").exists())


if __name__ == "__main__":
    unittest.main()
