"""The table of the desk's commands (`classroom.core.desk_words`), checked by the code that uses it: the desk, which
runs typed lines, the page on which the teacher acts, and the data about events of a journal."""
from __future__ import annotations

import json
import re
import unittest
import unittest.mock
from html.parser import HTMLParser

from classroom.client import Report, wrong
from classroom.core import lab as labs
from classroom.core.desk_words import BUTTONS, WORDS, Action
from classroom.core.journal import Event
from classroom.core.program import TOP
from classroom.pages.drawing import drawing_of
from classroom.pages.frames import State
from classroom.pages.page import live_page
from classroom.pages.replay import request
from classroom.run.daemons import Daemon
from classroom.run.desk import Desk
from classroom.run.typed import parse_command
from tests.classroom.help import CYCLE, InRoom

# Typed lines, and the requests that the desk sends to the server.
ASKED: dict[str, dict[str, object]] = {
    "close": {"do": "close"},
    "fault 4 - true": {"do": "fault", "node": 4, "p": None, "m": True},
    "fault 4 null false": {"do": "fault", "node": 4, "p": None, "m": False},
    "fault 4 5 true": {"do": "fault", "node": 4, "p": 5, "m": True},
    "link 1 3": {"do": "link", "a": 1, "b": 3},
    "cut 3 1": {"do": "cut", "a": 3, "b": 1},
    "release 7": {"do": "release", "node": 7},
}
# Typed lines, and the beginning of the answer to each, in a run of a lab without a house and pages.
TOLD = {
    "report": "configuration 0 is not stable; privileged nodes: 4 (update); events: 0 of ",
    "wait": "waiting for node 4 (gus): update",
    "who": "students without a granted move so far: ",
    "play gus": "the house can't play for gus, because it owns no node in this lab. ",
    "stop gus": "the house can't play for gus, because it owns no node in this lab. ",
    "every 5": "from now on steps are closed by the daemon every:5",
    "when-idle 0.5": "from now on steps are closed by the daemon when-idle:0.5",
    "by-hand": "from now on steps are closed by the daemon by-hand",
    "daemon random:0.5": "from now on steps are closed by the daemon random:0.5",
    "shake 3 1": "the registers of 3 nodes were set",
    "shake all": "the registers of 7 nodes were set",
    "break": "the registers of 7 nodes were set",
    "page": "this run has no page. Start a run with --page if you want one",
    "key gus": "the key can't be changed, because this run was started with --serve",
    "help": "  close ",
    "end": "the network isn't stable yet (privileged nodes: 1). Type `end` once more to end the run anyway",
}
# The line that each button of the page sends, if the fields have the values of FIELDS.
SENT = {
    "close": "close", "every": "every 5", "when-idle": "when-idle 5", "by-hand": "by-hand", "shake": "shake 3", "shake-all": "shake all",
    "break": "break", "set": "fault 4 null true", "release": "release 4",
    "end": "end",
}
FIELDS = {"seconds": "5", "count": "3", "picked": "4", "p": "null", "m": "true"}
# The words of an event, the request that repeats it, the nodes that it names, the number of links that it adds, and
# whether it is an edit, a change of registers or links by the teacher.
EVENTS = {
    "close": ('1 {"do":"close"}', (), 0, False),
    "release 7": ('1 {"do":"release","node":7}', (7,), 0, False),
    "fault 4 - true": ('1 {"do":"fault","node":4,"p":null,"m":true}', (4,), 0, True),
    "fault 4 5 false": ('1 {"do":"fault","node":4,"p":5,"m":false}', (4,), 0, True),
    "link 1 3": ('1 {"do":"link","a":1,"b":3}', (1, 3), 1, True),
    "cut 1 3": ('1 {"do":"cut","a":1,"b":3}', (1, 3), -1, True),
    "grant gus 4 update": ('2 {"do":"move","at":9,"node":4,"rule":"update"}', (4,), 0, False),
    "grant gus 4 marriage 5": ('2 {"do":"move","at":9,"node":4,"rule":"marriage","with":5}', (4,), 0, False),
}


class AtDesk(InRoom):
    """The reaction of the desk to each command."""

    def setUp(self) -> None:
        """Makes a desk of the cycle with a stand-in for its connection. `lines` gets the printed lines."""
        super().setUp()
        self.client, self.lines = unittest.mock.Mock(), list[str]()
        self.client.report.return_value = Report(0, False, (), (), ((4, "update"),), ())
        self.desk = Desk(labs.read(CYCLE), self.file("journal", ""), self.client, Daemon("by-hand"), self.lines.append)
        self.addCleanup(self.desk.known.journal.close)

    def test_each_command_is_tried_here_and_the_desk_can_run_each_action(self) -> None:
        self.assertEqual({line.split()[0] for line in (*ASKED, *TOLD)}, {*WORDS})
        self.assertEqual({*self.desk.actions, Action.END}, {*Action})

    def test_commands_that_change_the_run_send_a_request_and_print_nothing(self) -> None:
        for line, asked in ASKED.items():
            self.assertTrue(self.desk.command(line))
            self.client.ask.assert_called_once_with(**asked)
            self.assertIsNone(wrong(json.dumps(asked)))
            self.client.ask.reset_mock()
        self.assertEqual(self.lines, [])

    def test_other_commands_print_a_line_and_send_no_request_but_faults(self) -> None:
        """Only a second `end` in a row ends the run, since the network isn't stable."""
        for line, told in TOLD.items():
            self.lines.clear()
            self.assertTrue(self.desk.command(line))
            self.assertTrue(self.lines[-1].startswith(told), (line, self.lines))
        self.client.ask.assert_not_called()
        self.assertEqual(len(self.client.fault.mock_calls), 3 + 7 + 7)  # those of `shake 3 1`, `shake all` and `break`
        self.assertFalse(self.desk.command("end"))  # The last line of TOLD is the first `end`.


class Buttons(HTMLParser):
    """The identifiers of a page's buttons (`names`), and the data for its script (`data`)."""

    def __init__(self, page: str) -> None:
        """Reads the text of a page."""
        super().__init__()
        self.names: list[str] = []
        self.data = json.loads(page.partition('data-form="plain">')[2].partition("</script>")[0])
        self.feed(page)

    def handle_starttag(self, tag: str, attrs: list[tuple[str, str | None]]) -> None:
        """Keeps the identifier of a button."""
        if tag == "button":
            self.names.append(dict(attrs)["id"] or "")


class OnPage(unittest.TestCase):
    """The lines that the page on which the teacher acts sends."""

    def test_each_button_sends_a_line_that_can_be_typed(self) -> None:
        """So do clicks on two nodes, which add or remove a link. Buttons that send no line are left out. Each field
        that a line names is on the page."""
        lab = labs.read(TOP / "examples/cycle.toml")
        state = State(0, 0, frozenset(map(labs.ordered, lab.links)), {node.id: None for node in lab.nodes}, {node.id: False for node in lab.nodes})
        page, _ = live_page("cycle", drawing_of(lab), state, True)
        buttons = Buttons(page)
        self.assertEqual({*buttons.names} - {"freeze", "whole", "witnesses", "cancel", "go-on", "do-end"}, {*SENT})
        self.assertEqual({name: self.filled(line) for name, line in buttons.data["buttons"].items()}, SENT)
        for line in (*SENT.values(), *(f"{word} 1 3" for word in buttons.data["byLinks"].values())):
            self.assertEqual(parse_command(line), line.split())
            self.assertTrue(WORDS[line.split()[0]].is_on_page)
        self.assertEqual(buttons.data["byLinks"], {"1": "link", "-1": "cut"})
        fields = {name for button in BUTTONS.values() for name in re.findall(r"#(\w+)", button.line)}
        self.assertEqual(fields - {name for name in fields if f'id="{name}"' in page}, set())

    def filled(self, line: str) -> str:
        """Returns the line of a button with values in place of the fields' names."""
        return re.sub(r"#(\w+)", lambda found: FIELDS[found[1]], line)


class InJournal(unittest.TestCase):
    """The table's data about events of a journal."""

    def test_each_event_has_its_request_nodes_links_and_whether_it_is_an_edit(self) -> None:
        """The request of an event in configuration 9 is the line of a script that makes the event again."""
        for line, (asked, nodes, links, is_edit) in EVENTS.items():
            event = Event(1, 9, tuple(line.split()))
            self.assertEqual((request(9, event.words), event.nodes, event.links, event.is_edit), (asked, nodes, links, is_edit))
            self.assertEqual(event.makes_configuration, is_edit or line == "close")


if __name__ == "__main__":
    unittest.main()
