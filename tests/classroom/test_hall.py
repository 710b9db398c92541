"""The page for all networks of a class: its addresses, its state, and the lines that it accepts. Its server is the
*hall*. The page has an address to look at, and another one at which the teacher can act by sending lines. Each address
has a random token in its path."""
from __future__ import annotations

import json
import re
import threading
import unittest
import urllib.error
import urllib.request
from collections.abc import Callable
from typing import Any
from urllib.parse import urlsplit

from classroom.core.class_state import ClassState, NetworkState
from classroom.core.program import host
from classroom.pages import hall
from tests.classroom.help import LIMIT, a_port
from tests.classroom.several import Classes


def ask(address: str, line: str | None = None) -> tuple[int, str]:
    """Requests an address, or posts a line to it. Returns the status and the text of the answer."""
    try:
        with urllib.request.urlopen(address, None if line is None else line.encode(), LIMIT) as answer:
            return answer.status, answer.read().decode()
    except urllib.error.HTTPError as error:
        with error:
            return error.code, ""


def state_of_two(port: int | None = None) -> ClassState:
    """Returns the state of a class with two networks, one of which is down. `port` is that of the other one."""
    state = {"configuration": 3, "stable": True, "privileged": [], "pairs": [[1, 2]], "open": 0, "moves": 4, "most": 9, "missing": ["Zoë M."]}
    return ClassState("<maths>", [NetworkState(1, "maths-1", "A", port, "", 15, 4, "runs", "", state),
                                  NetworkState(2, "maths-2", "B", None, "", 15, 4, "down", "its server was killed; resume 2")], ["a line"])


class Served(unittest.TestCase):
    """The server of the page."""

    def setUp(self) -> None:
        """Starts the hall of a class with two networks. The list `acts` gets the lines that the hall accepts."""
        self.acts: list[str] = []
        self.hall = hall.open_hall(a_port(), "<maths>", self.acts.append, state_of_two())
        self.addCleanup(self.hall.close)

    def test_each_address_has_its_own_state_and_page_without_the_other_token(self) -> None:
        """Other paths are answered with status 404."""
        self.hall.show(state_of_two(4711), state_of_two(4712))
        for address, port, kind in ((self.hall.address, 4711, "looks"), (self.hall.address_to_act, 4712, "acts")):
            status, text = ask(f"{address}state")
            self.assertEqual((status, json.loads(text)), (200, state_of_two(port).table()))
            status, page = ask(address)
            self.assertEqual(status, 200)
            self.assertIn(f'<body class="hall {kind}">', page)
            self.assertIn("<title>&lt;maths&gt;</title>", page)
            self.assertNotIn("<maths>", page)
            self.assertNotIn(self.hall.acts if kind == "looks" else self.hall.looks, page)
        for path in ("", "x/", f"{self.hall.looks}", f"{self.hall.looks}/x", f"{self.hall.looks}/act"):
            self.assertEqual(ask(f"http://127.0.0.1:{self.hall.server_port}/{path}")[0], 404, path)

    def test_lines_are_accepted_only_at_the_address_to_act_and_only_in_a_known_form(self) -> None:
        """An accepted line gets the status 204, and a line of another form 400. At the address to look at each line
        gets 404, and so does a line that is too long."""
        for line in ("2: close", "all: shake 3", "maths-1: shake all", "1: end", "2: resume"):
            self.assertEqual(ask(f"{self.hall.address_to_act}act", line)[0], 204, line)
            self.assertEqual(ask(f"{self.hall.address}act", line)[0], 404)
        self.assertEqual(self.acts, ["2: close", "all: shake 3", "maths-1: shake all", "1: end", "2: resume"])
        for line in ("close", "2: fault 1 - true", "2: close\n1: end", "2: shake 1000", "2: key ana", "", "2: close x", "2:close"):
            self.assertEqual(ask(f"{self.hall.address_to_act}act", line)[0], 400, line)
        # A line has at most 200 bytes.
        self.assertEqual(ask(f"{self.hall.address_to_act}act", "2: close" + " " * 300)[0], 404)
        self.assertEqual(len(self.acts), 5)

    def test_the_events_begin_with_the_present_state_and_end_with_the_last_one(self) -> None:
        """The request for `events` is answered until the class ends."""
        got: list[str] = []
        opened = threading.Event()

        def read() -> None:
            """Reads the lines of all events into `got`, to the end. Sets `opened` when the first line has come."""
            with urllib.request.urlopen(f"{self.hall.address}events", timeout=LIMIT) as news:
                for line in news:
                    got.append(line.decode().strip())
                    opened.set()

        reader = threading.Thread(target=read)
        reader.start()
        self.assertTrue(opened.wait(LIMIT))
        self.hall.show(state_of_two(4711), state_of_two(4711))
        ended = state_of_two(4711)
        ended.ended = True
        self.hall.stop(ended, ended)
        reader.join(LIMIT)
        told = [json.loads(line.removeprefix("data: ")) for line in got if line.startswith("data: ")]
        self.assertEqual((told[0], told[-1]), (state_of_two().table(), ended.table()))

    def test_a_request_that_names_another_host_is_answered_with_status_421(self) -> None:
        asked = urllib.request.Request(f"{self.hall.address}state", headers={"Host": "evil.example"})
        with self.assertRaises(urllib.error.HTTPError) as error:
            urllib.request.urlopen(asked, timeout=LIMIT)
        self.assertEqual(error.exception.code, 421)
        error.exception.close()


@unittest.skipUnless(host(), "not tried: no host is built")
class OfAClass(Classes):
    """The page of a running class."""

    def test_it_shows_the_networks_and_shakes_resumes_and_ends_them(self) -> None:
        port = a_port()
        desk = self.begin("--close", "by-hand", "--page", str(port), "--rooms", "A,B")
        looks, acts = (next(found[1] for line in desk.lines if (found := re.fullmatch(f"page for all networks{kind} (http.*)", line)))
                       for kind in ("", ", on which you can act"))
        state = json.loads(ask(f"{looks}state")[1])
        self.assertRegex(state["title"], r"^maths, \d{4}-\d\d-\d\d$")
        self.assertEqual([(it["number"], it["name"], it["room"], it["status"]) for it in state["networks"]],
                         [(1, "maths-1", "A", "runs"), (2, "maths-2", "B", "runs")])
        # Each network has a page of its own. The state to look at lacks the address at which the teacher acts there.
        for number, it in enumerate(state["networks"], 1):
            self.assertEqual(ask(it["page"])[0], 200)
            self.assertNotIn(urlsplit(json.loads(ask(f"{acts}state")[1])["networks"][number - 1]["page"]).path, json.dumps(state))
        # The page accepts each line of the right form, also for a network that doesn't exist.
        self.assertEqual(ask(f"{acts}act", "maths-9: close")[0], 204)
        self.assertEqual(ask(f"{acts}act", "2: shake all")[0], 204)
        desk.until("^maths-2: the registers of 4 nodes were set$")
        # Each of the four registers that are set makes a configuration.
        self.until_state(looks, lambda it: (it["networks"][1]["state"] or {}).get("configuration") == 4)
        state = json.loads(ask(f"{looks}state")[1])["networks"][1]["state"]
        self.assertEqual((len(state["nodes"]), len(state["missing"])), (4, 4))
        desk.kill("maths-1")
        desk.until("^ALARM maths-1 is down: ")
        self.until_state(looks, lambda it: it["networks"][0]["status"] == "down")
        ask(f"{acts}act", "1: resume")
        desk.until("^maths-1: the class continues at ")
        self.until_state(looks, lambda it: it["networks"][0]["status"] == "runs")
        self.assertEqual(ask(f"{acts}act", "all: end")[0], 204)
        self.assertEqual(desk.wait_for_end(), 0, desk.lines)

    def until_state(self, looks: str, holds: Callable[[dict[str, Any]], object]) -> None:
        """Reads the events at `looks`, an address to look at, until `holds` returns a true value for a state. Fails if
        the events end before."""
        with urllib.request.urlopen(f"{looks}events", timeout=LIMIT) as news:
            for line in news:
                if line.startswith(b"data: ") and holds(json.loads(line.removeprefix(b"data: "))):
                    return
        self.fail("the page is over")


if __name__ == "__main__":
    unittest.main()
