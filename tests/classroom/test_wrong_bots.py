"""`./class grade` with bots that have one mistake each. Each fails the case that finds its mistake, with a line about
what to change. Correct bots in several styles pass. `small` and `full` are the suites of cases, and each case has a
*plan* with its network, its daemon and what is done to the bot."""
from __future__ import annotations

import concurrent.futures
import json
import socketserver
import subprocess
import sys
import tempfile
import threading
import unittest
from pathlib import Path

from classroom.bots import suites
from classroom.bots.attempt import Limits
from classroom.bots.bots import Bot
from classroom.bots.trial import Result, try_bot
from classroom.core.processes import reap_orphans
from classroom.core.program import TOP
from tests.classroom.help import LIMIT, InRoom, call_class
from tests.classroom.wrong_bots.wrong import BOTS

WRONG = TOP / "tests/classroom/wrong_bots/wrong.py"
RIGHT = sorted((TOP / "tests/classroom/right_bots").glob("[a-z]*.py"))
AT_ONCE = 8  # the number of bots at the same time; they mostly wait
SECONDS = 12.0  # the limit of each wait for a bot, and of its processor time
# The beginnings of reasons: a move was denied because its rule isn't enabled, and a move was never asked for.
GUARD = r"denied as guard, clause 4: .*; a second program with the same rules, which doesn't decide the result, explains: {part}; a correct bot would send "
HANGS = r"(didn't become stable within|didn't ask for \w+ at node \d+, which is privileged,).* {rule}"
# For each bot: the case of `small` that finds its mistake, and the recorded reason.
FOUND = {
    "never-updates": ("complete-4", HANGS.format(rule="update") + '.*a correct bot would send {"at":\\d+,"do":"move","node":\\d+,"rule":"update"}'),
    "never-abandons": ("complete-4", HANGS.format(rule="")),
    "never-seduces": ("complete-4", HANGS.format(rule="seduction")),
    "updates-only-to-true": ("complete-4", GUARD.format(part=r"m of node \d+ is true and node \d+ is not married, so the update comes first")),
    "takes-a-pointer-for-a-pair": ("complete-4", GUARD.format(part=".*")),
    "takes-a-suitor-for-a-pair": ("complete-4", GUARD.format(part=r"m of node \d+ is false and node \d+ is not married, so there is nothing to update")),
    "seduces-the-married": ("complete-4", GUARD.format(part=r"no neighbour of node \d+ with a greater number has p null and m false: m of node \d+ is true")),
    "seduces-the-pointing": ("complete-4", GUARD.format(part=r"no neighbour of node \d+ with a greater number has p null and m false: p of node \d+ is \d+")),
    "seduces-the-lower": ("complete-4", GUARD.format(part=r"no neighbour .*")),
    "seduces-before-it-marries": ("complete-4", GUARD.format(part=r"p of node \d+ is \d+, so node \d+ may marry, but not seduce")),
    "marries-the-first": ("complete-4", GUARD.format(part=r"p of node \d+ isn't \d+, but (null|\d+)")),
    "marries-while-pointing": ("complete-4", GUARD.format(part=r"p of node \d+ isn't null, but \d+")),
    "rules-before-update": ("complete-4", GUARD.format(part=r"m of node \d+ is (true|false) and node \d+ is (not )?married, so the update comes first")),
    "abandons-only-the-married": ("complete-4", HANGS.format(rule="")),
    "abandons-only-the-lower": ("complete-4", HANGS.format(rule="")),
    "abandons-at-once": ("complete-4", GUARD.format(part=r"m of node \d+ is false and \d+ is not less than \d+, so node \d+ has to wait for node \d+")),
    "compares-texts": ("complete-4", "(guard|seduction)"),
    "leaves-out-its-own": ("complete-4", HANGS.format(rule="seduction")),
    "remembers-the-neighbours": ("complete-4", "."),
    "asks-whatever-is-shown": ("complete-4", GUARD.format(part=r"m of node \d+ is (true|false) and node \d+ is (not )?married, so there is nothing to update")),
    "asks-again-while-chosen": ("complete-4", r"asks again and again for moves of nodes that have a granted move already, .* of node \d+ with `at` \d+"),
    "stops-at-stale": ("cycle-5", "the bot ended by itself, with status 1, after a step was closed between its look and its move (.*): the move was denied"),
    "stops-at-chosen": ("pairs-cycle-6", "the bot ended by itself, with status 1(, after another owner asked first for the move|; a bot keeps running)"),
    "repeats-the-line": ("cycle-5", r"asks again and again for a move of node \d with `at` \d+, which was denied as `stale`: after `stale` look"),
    "takes-the-number-of-a-denial": ("cycle-5", r"the bot asks for a move of node \d with `at` \d+, but none of its looks at node \d had this `at`"),
    "takes-the-newest-number": ("complete-4", "."),
    "waits-for-the-next-number": ("path-4", r"the teacher released the bot's granted move of node \d in configuration \d+, and the bot didn't ask again"),
    "waits-for-the-step": ("complete-4", "didn't become stable within"),
    "takes-a-grant-for-a-step": ("complete-4", "."),
    "plays-one-node": ("complete-4", r"didn't become stable within .*; the bot never looked at node \d+"),
    "leaves-the-married-alone": ("complete-4", r"the bot didn't (ask for|look at)"),
    "takes-the-eldest-number": ("complete-4", r"the bot asks for a move of node \d+ with `at` 0, but none of its looks at node \d+ had this `at`"),
    "looks-at-the-neighbours": ("complete-4", r"look at node \d+ is denied as not-owner, .*; a bot looks at and moves only its own nodes"),
    "never-pauses": ("complete-4", "the bot floods the server: "),
    "sends-numbers-as-texts": ("complete-4", r"malformed: node is a string, not a whole number \(write \d+, without quotes\)"),
    "marries-without-a-name": ("complete-4", 'the bot ended by itself.*: malformed, and not sent: the key "with" is missing'),
    "ends-when-stable": ("complete-4", "the bot ended by itself, with status 1; a bot keeps running until the class is over"),
    "ends-after-three-seconds": ("grid-6", "the bot ended by itself, with status 1, after the network was stable for some seconds"),
    "ends-while-a-step-is-open": ("grid-6", "the bot ended by itself, with status 1, while the step stayed open after its move was granted"),
    "gives-up-when-busy": ("pairs-path-5", "the bot ended by itself, with status 1, after the reply `busy`"),
    "hammers-when-busy": ("pairs-path-5", r"the bot connected more than \d+ times in a minute"),
    "never-greets-again": ("random-6", "the bot's connection was closed, and within .* seconds the bot didn't connect again"),
    "forgets-the-hello": ("random-6", "look at node \\d is denied as not-greeted, .*; a bot says hello on each new connection"),
    "goes-on-for-ever": ("path-4", "the bot is still running 12 seconds after it got the line `over`"),
    "connects-for-each-look": ("complete-4", r"the bot closed \d+ connections and connected again: a bot keeps its connection open"),
    "takes-all-seats": ("complete-4", r"the bot has \d+ connections open at once, and each takes a seat: a bot needs only one"),
    "greets-twice": ("complete-4", "hello .*is denied as greeted, .*; a bot says hello only once on each connection"),
    "reads-once": ("hub-70", "(didn't become stable within|the bot closed .* connections).*; in this case replies are long and arrive in pieces"),
    "reads-a-kilobyte": ("hub-70", "(didn't become stable within|the bot closed .* connections).*; in this case replies are long and arrive in pieces"),
    "takes-the-rule-of-a-stale-look": ("cycle-5", GUARD.format(part=".*")),
    "repeats-the-lost-line": ("random-6", r"on a new connection the bot asks for a move of node \d with the `at` of a look on the lost connection"),
    "mixes-its-connections": ("random-6", r"on a new connection the bot asks for a move of node \d with the `at` of a look on the lost connection"),
    "keeps-old-neighbours": ("tree-7", r"guard|neighbours change in a run"),
    "sees-no-new-neighbours": ("tree-7", r"the teacher linked node \d with node \d, .*neighbours change in a run: take them from your last look"),
    "keeps-its-own-registers": ("complete-4", "."),
    "waits-for-its-move": ("alone-cycle-4", r"a fault at node \d dropped the bot's granted move of node \d, and the bot didn't ask again"),
    "takes-the-look-before": ("complete-4", r"asks again and again with an `at` that isn't the one of its last look"),
    "waits-for-news": ("complete-4", r"the bot didn't (ask for|look at)"),
    "ends-when-married": ("complete-4", "the bot ended by itself, with status 1.*; a bot keeps running until the class is over"),
    "ends-after-ten-seconds": ("grid-6", "the bot ended by itself, with status 1, after the network was stable for some seconds"),
    "ends-when-closed": ("random-6", r"the bot ended by itself, with status 7, after its connection was closed \(a bot connects again"),
    "ends-when-nobody-listens": ("random-6", r"with status 4, after its server was stopped for 8 seconds.*if no server listens at the port, it keeps trying"),
    "gives-up-after-three-seconds": ("random-6", r"the bot ended by itself, with status 1, after its server was stopped for 8 seconds.*for a minute"),
    "ends-at-memory": ("path-4", "the bot ended by itself, with status 1, after the refusal `memory`, which means: ask again a little later"),
    "keeps-half-a-reply": ("hub-70", r"the bot ended by itself, with status 1, after its connection was closed in the middle of a reply"),
    "comes-again-twice": ("two-faults-5", r"the bot ended by itself, with status 7, after its connection was closed"),
    "gives-up-at-three-denials": ("cycle-5", r"the bot ended by itself, with status 1, after a step was closed between its look and its move"),
    "polls-almost-busily": ("complete-4", r"the bot sent \d+ lines a second while nothing changed|the bot floods"),
    "watches-one-node": ("grid-6", r"the network was stable for 12 seconds, and the bot didn't look at node \d: look at all nodes again and again"),
    "polls-busily": ("complete-4", r"the bot sent \d+ lines a second while nothing changed|the bot floods"),
    "leaves-connections-open": ("grid-6", r"the bot has \d+ connections open at once, .*: a bot needs only one, and closes those that it doesn't use"),
    "hangs-up-now-and-then": ("grid-6", r"the bot closed \d+ connections and connected again: a bot keeps its connection open"),
    "comes-too-often-when-busy": ("pairs-path-5", r"the bot connected \d+ times in 3 seconds in which the reply was `busy`: connect again a second later"),
    "moves-one-node": ("alone-path-4", HANGS.format(rule="")),
    "takes-null-for-zero": ("complete-4", GUARD.format(part=".*")),
    "takes-chosen-for-the-rule": ("complete-4", "asks again and again for moves of nodes that have a granted move already"),
    "waits-until-chosen": ("complete-4", HANGS.format(rule="")),
    "abandons-by-texts": ("complete-4", r"the bot didn't ask for abandonment at node \d+, which is privileged"),
    "sorts-texts": ("complete-4", HANGS.format(rule="seduction")),
    "forgets-the-newline": ("complete-4", "the bot sent a line without a newline at its end"),
}
# The same for the suite `full`.
IN_FULL = {
    "ends-after-half-a-minute": ("rest-path-5", "the bot ended by itself, with status 1, after the network was stable for some seconds"),
    "ends-when-its-seat-goes": ("path-hurt-gone", "the bot ended by itself, with status 1, after its seat was given to a new connection"),
}
PLANS = {plan.name: plan for plan in suites.FULL}


class Wrong(InRoom):
    """Bots with one mistake each."""

    def tries(self, name: str, plan: str) -> Result:
        """Tries the bot of `wrong.py` with this name in the case of the plan `plan`. Returns the result."""
        it = PLANS[plan]
        bot = Bot.of(f"{sys.executable} {WRONG} {name}")
        with tempfile.TemporaryDirectory() as own:
            found = try_bot(bot, suites.planned(it, 1, it.daemon), Limits(SECONDS), Path(own), self.room / name / plan, threading.Event())
        assert found is not None
        return found

    def test_each_bot_fails_its_case_for_the_recorded_reason(self) -> None:
        """Each bot of `wrong.py` has a case here. The cases of `full` begin first, since one of them has a minute in
        which nothing happens."""
        self.assertEqual({**FOUND, **IN_FULL}.keys(), BOTS.keys())
        self.assertLessEqual({plan for plan, _ in FOUND.values()}, {plan.name for plan in suites.SMALL})
        self.assertGreaterEqual(len(BOTS), 30)
        reap_orphans()  # `grade` does this too, so that what a bot leaves running can be found and ended.
        with concurrent.futures.ThreadPoolExecutor(AT_ONCE) as pool:
            going = {name: pool.submit(self.tries, name, plan) for name, (plan, _) in {**IN_FULL, **FOUND}.items()}
        for name, (_, why) in {**FOUND, **IN_FULL}.items():
            with self.subTest(name):
                result = going[name].result()
                self.assertFalse(result.passed, name)
                self.assertRegex(result.why, why)

    def test_the_bot_without_a_mistake_passes_the_same_cases(self) -> None:
        """It is called `right`. Only denials and refusals that a correct bot can get are counted for it."""
        plans = sorted({plan for plan, _ in (*FOUND.values(), *IN_FULL.values())})
        with concurrent.futures.ThreadPoolExecutor(AT_ONCE) as pool:
            results = list(pool.map(lambda plan: self.tries("right", plan), plans))
        for result in results:
            self.assertTrue(result.passed, result)
            self.assertLessEqual(result.denied.keys(), {"stale", "chosen", "memory"})


class Server(socketserver.StreamRequestHandler):
    """A connection to a server that denies each move as one of another student's node."""

    REPLIES = {
        "hello": {"ok": "hello", "who": "bot"},
        "look": {"at": 0, "chosen": None, "m": False, "near": [{"m": False, "node": 2, "p": None}], "node": 1, "ok": "look", "p": None, "rule": "seduction"},
        "move": {"clause": 1, "deny": "not-owner", "text": "this node is not yours"},
    }

    def handle(self) -> None:
        """Answers each line with the reply in REPLIES for its request."""
        for line in self.rfile:
            self.wfile.write(json.dumps(self.REPLIES[json.loads(line)["do"]]).encode() + b"\n")


class Right(InRoom):
    """Bots without a mistake."""

    def test_each_bot_ends_at_a_denial_that_shows_a_mistake(self) -> None:
        """If one of a bot's threads ended without the others, the bot would keep running, but ask for no move. The
        status is 3, that of a denial as `not-owner`, or 1 for the bot that uses no module of the release."""
        with socketserver.ThreadingTCPServer(("127.0.0.1", 0), Server) as server:
            server.daemon_threads = True
            threading.Thread(target=server.serve_forever, daemon=True).start()
            slip = self.file("bot.slip", f"port {server.server_address[1]}\nname bot\nkey heron-31\nnodes 1\n")
            bots = [subprocess.Popen([sys.executable, "-B", bot, slip], stderr=subprocess.PIPE, text=True) for bot in RIGHT]
            for bot in bots:
                self.addCleanup(bot.kill)
            for bot, file in zip(bots, RIGHT):
                with self.subTest(file.stem):
                    error = bot.communicate(timeout=LIMIT)[1]
                    self.assertIn(bot.returncode, (1, 3), error)
                    self.assertNotIn("Traceback", error)
            server.shutdown()

    def test_the_five_correct_bots_pass_each_case_of_small(self) -> None:
        self.assertEqual(len(RIGHT), 5)
        table = self.room / "cases.json"
        done = call_class("grade", *RIGHT, "--timeout", "120", "--into", self.room / "grades", "--json", table)
        self.assertEqual(done.returncode, 0, done.stdout + done.stderr)
        self.assertEqual(len(json.loads(table.read_text(encoding="utf-8"))), 5 * len(suites.SMALL))

    def test_with_own_rule_only_a_bot_that_finds_the_rule_by_itself_passes(self) -> None:
        """With this option the replies to looks don't have the enabled rule. The bot that needs the rule is given up
        after 15 seconds, and the other one has more time."""
        own, asks = next(file for file in RIGHT if file.stem == "own_rule"), next(file for file in RIGHT if file.stem == "snapshot")
        labs = self.room / "labs"
        labs.mkdir()
        (labs / "path.toml").write_bytes((TOP / "examples/path.toml").read_bytes())
        given: tuple[str | Path, ...] = ("--labs", labs, "--daemon", "synchronous", "--own-rule", "--into", self.room / "grades")
        done = call_class("grade", own, *given, "--timeout", "120")
        self.assertEqual(done.returncode, 0, done.stdout + done.stderr)
        self.assertIn("\nown_rule.py: 1 of 1 cases passed\n", done.stdout)
        done = call_class("grade", asks, *given, "--timeout", "15")
        self.assertEqual(done.returncode, 5, done.stdout + done.stderr)
        self.assertIn("class: with --own-rule the replies to looks don't name the rule whose guard holds: ", done.stdout)
        self.assertIn("\nsnapshot.py: 0 of 1 cases passed\n", done.stdout)
        self.assertRegex(done.stdout, "didn't become stable within 15 seconds: .*; with --own-rule the key `rule` is null in each look: ")
        said = next((self.room / "grades").rglob("snapshot.py/*/conversation.txt")).read_text(encoding="utf-8")
        self.assertIn('"rule":null}', said)
        self.assertNotRegex(said, r'"ok":"look".*"rule":"')


if __name__ == "__main__":
    unittest.main()
