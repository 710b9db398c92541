"""The page on which a student plays by hand, in a real browser and by its HTTP requests. The page has a *card* for each
of the student's nodes, with a button for each rule and a large button for the move that can be made now. The page's own
server connects to the class's server, and takes a *seat* there, when the student has entered name and key."""
from __future__ import annotations

import http.client
import json
import os
import re
import signal
import socket
import threading
import time
import unittest
from collections.abc import Iterator
from contextlib import contextmanager
from pathlib import Path
from typing import Any
from urllib.parse import urlsplit

from selenium.webdriver.support.select import Select

from classroom.client import Client
from classroom.core.lab import read
from classroom.pages.by_hand import PlayServer, open_play_page
from tests.classroom.browser import browser, show_as, until
from tests.classroom.help import CYCLE, KEYS, LIMIT, Going, InRoom, Rows, a_port
from tests.classroom.test_page import hashed
from tests.classroom.test_shown import PHONE, WINDOWS, check_readable, resize

# Returns what the card of a node shows. The node's identifier is the argument.
CARD = """
const card = [...document.querySelectorAll('#nodes section')].find((it) => it.querySelector('.id').textContent === arguments[0]);
const texts = (selector) => [...card.querySelectorAll(selector)].map((it) => it.textContent);
const holding = [...card.querySelectorAll('[data-holds="true"]')].map((it) => it.dataset.rule);
return {p: texts('.p')[0], m: texts('.m-of')[0], near: texts('td'), holding, guards: texts('.guard'), acts: texts('.act'), idle: texts('.idle')[0],
        reply: texts('.reply')[0]};
"""
# Returns the data attributes of each node in the picture.
DRAWN = """
return [...document.querySelectorAll('#drawing .node')].map((it) => ({...it.dataset}))
    .sort((a, b) => Number(a.node) - Number(b.node));
"""
# Returns how many pixels of width the page needs.
WIDE = """
return [document.documentElement.scrollWidth, ...[...document.querySelectorAll('body *')].filter((it) => !it.closest('svg'))
    .map((it) => it.getBoundingClientRect().right)].reduce((a, b) => Math.max(a, b));
"""
RULES = ["update", "marriage", "seduction", "abandonment"]
VERBS = {"update": "update m", "marriage": "marry", "seduction": "seduce", "abandonment": "abandon"}
NOTHING = "nothing to do now: wait for the next step"
GRANTED = "step 0, update: granted, as event 1; the move is applied when the step closes"  # the reply to the first move


class Playing(InRoom):
    """Runs of the cycle of `examples/`, in which gus owns the nodes 1 and 4 and plays on the page."""

    def setUp(self) -> None:
        """Opens the browser, and lets it leave the page at the end of the test."""
        super().setUp()
        self.driver: Any = browser()
        self.addCleanup(self.driver.get, "about:blank")

    def begin(self, lab: Path = CYCLE, *more: str) -> None:
        """Starts a run of a lab with these options. Its steps are closed by hand. Keeps the run in `going`, and the
        address of the page on which its students play in `address`."""
        self.going = Going(self, lab, "--close", "by-hand", "--play", str(a_port()), *more)
        self.address = self.going.until("^page for playing by hand http").removeprefix("page for playing by hand ")

    def open(self, more: str = "") -> None:
        """Loads the page again, with `more` after its address."""
        self.driver.get("about:blank")
        self.driver.get(self.address + more)

    def come(self, name: str = "gus", key: str = "") -> None:
        """Types a name and a key on the page, and clicks the button to enter. Without `key`, types the student's own
        key."""
        for field, text in (("name", name), ("key", key or KEYS[name])):
            element = self.driver.find_element("id", field)
            element.clear()
            element.send_keys(text)
        self.driver.find_element("id", "come").click()

    def wait_until_in(self) -> None:
        """Waits until the page shows a node."""
        until(self.driver, lambda driver: driver.execute_script("return document.body.dataset.played === 'true'"))

    def wait_until_out(self, text: str) -> None:
        """Waits until the page shows this text about its connection, and a button by which the student can enter
        again."""
        until(self.driver, lambda driver: text in driver.find_element("id", "connection").text)
        until(self.driver, lambda driver: driver.find_element("id", "come").is_displayed() and driver.find_element("id", "come").is_enabled())

    def card(self, node: int) -> dict[str, Any]:
        """Returns what the page's card of a node shows: registers, neighbours, rules, buttons and the last reply."""
        found: dict[str, Any] = self.driver.execute_script(CARD, str(node))
        return found

    def click_rule(self, node: int, rule: str) -> bool:
        """Presses the button of a rule on the card of a node, after opening its list of rules. Returns whether the page
        has this card."""
        cards = self.driver.find_elements("css selector", "#nodes section")
        card = next((card for card in cards if card.find_element("class name", "id").text == str(node)), None)
        if card and card.find_element("tag name", "details").get_attribute("open") is None:
            card.find_element("tag name", "summary").click()
        if card:
            card.find_element("css selector", f"[data-rule={rule}] button").click()
        return card is not None

    def click_large(self, node: int) -> bool:
        """Presses the large button of a node. Returns whether there is one, that is, whether a move can be made."""
        buttons = self.driver.find_elements("css selector", ".btn.act")
        button = next((button for button in buttons if button.text.startswith(f"Node {node}: ")), None)
        if button:
            button.click()
        return button is not None

    def press_rule(self, node: int, rule: str) -> str:
        """Presses the button of a rule on the card of a node. Returns the reply that the page shows then. Earlier
        replies are removed from the page before."""
        self.driver.execute_script("for (const it of document.querySelectorAll('.reply')) it.textContent = ''")
        until(self.driver, lambda _: self.click_rule(node, rule))
        until(self.driver, lambda _: self.card(node)["reply"] != "")
        reply: str = self.card(node)["reply"]
        return reply

    def press_large(self, node: int) -> str:
        """Presses the large button of a node. Returns the reply that the page shows then. Earlier replies are removed
        from the page before."""
        self.driver.execute_script("for (const it of document.querySelectorAll('.reply')) it.textContent = ''")
        until(self.driver, lambda _: self.click_large(node))
        until(self.driver, lambda _: self.card(node)["reply"] != "")
        reply: str = self.card(node)["reply"]
        return reply

    def close(self, number: int) -> None:
        """Closes the step at the desk, and waits until the page shows the configuration with this number."""
        self.going.type("close")
        self.going.until(f"^configuration {number}: ")
        self.wait_until_shown(number)

    def wait_until_shown(self, number: int) -> None:
        """Waits until the page shows the configuration with this number."""
        until(self.driver, lambda driver: driver.find_element("id", "number").text == str(number))

    def wait_for_seats(self, wanted: str) -> None:
        """Waits until the command `who` at the desk prints this text about the people who have seats."""
        end = time.monotonic() + LIMIT
        while wanted not in (told := self.who()):
            self.assertLess(time.monotonic(), end, told)
            time.sleep(0.2)

    def who(self) -> str:
        """Types `who` at the desk, and returns the line about the people who are connected."""
        self.going.type("who")
        return self.going.until(r"^connected: .* seats are taken\)")

    def compare(self, client: Client, nodes: list[int]) -> None:
        """Checks that the cards and the picture show what the server replies to the looks of `client` at these nodes,
        which are all nodes of the same student."""
        looks = {node: client.look(node) for node in nodes}
        drawn = {int(each["node"]): each for each in self.driver.execute_script(DRAWN)}
        self.assertEqual(drawn.keys(), {*nodes, *(near.node for look in looks.values() for near in look.near)})
        for node, look in looks.items():
            card = self.card(node)
            self.assertEqual((card["p"], card["m"]), ("null" if look.p is None else str(look.p), str(look.m).lower()))
            self.assertEqual(card["near"], [word for near in look.near for word in
                                            (str(near.node), "null" if near.p is None else str(near.p), str(near.m).lower())])
            self.assertEqual(card["holding"], [look.rule] if look.rule else [])
            self.assertEqual(card["guards"], ["can be applied now" if rule == look.rule else "" for rule in RULES])
            partners = [f" {near.node}" for near in look.near if near.p == node] if look.rule == "marriage" else [""]
            acts = [f"Node {node}: {VERBS[look.rule]}{partner}" for partner in partners] if look.rule and not look.chosen else []
            self.assertEqual(card["acts"], acts)
            idle = f"{look.chosen} is chosen: it is applied when the step closes" if look.chosen else "" if look.rule else NOTHING
            self.assertEqual(card["idle"], idle)
            self.assertEqual((drawn[node]["rule"], drawn[node]["chosen"]), (look.rule or "", look.chosen or ""))
            for each in (look, *look.near):
                self.assertEqual((drawn[each.node]["p"], drawn[each.node]["m"]),
                                 ("" if each.p is None else str(each.p), str(each.m).lower()))

    def test_the_page_shows_replies_to_moves_and_the_state_after_each_change(self) -> None:
        """Gus also has a program that is connected beside the page and gets the same replies."""
        self.begin()
        self.open()
        self.come()
        self.wait_until_in()
        gus = self.enter_beside("gus")
        self.compare(gus, [1, 4])
        # Gus isn't shown node 6, so only its number is drawn.
        self.assertEqual(self.driver.execute_script("return [...document.querySelectorAll('.beyond text')].map((it) => it.textContent)"), ["6"])
        self.assertEqual(self.press_rule(1, "seduction"), "step 0, seduction: denied, since the guard of seduction "
                         "doesn't hold at this node now (clause 4, guard)")
        self.assertEqual(self.press_large(4), GRANTED)
        until(self.driver, lambda _: self.card(4)["idle"].startswith("update is chosen"))
        self.compare(gus, [1, 4])
        self.assertEqual(self.press_rule(4, "update"), "step 0, update: denied, since a move of this node is chosen "
                         "already, and is applied when the step closes (clause 3, chosen)")
        self.close(1)
        self.assertEqual((self.card(4)["m"], self.card(4)["idle"].partition(" is chosen")[1]), ("false", ""))
        self.compare(gus, [1, 4])
        # The nodes 2 and 7 are the neighbours of node 1, and 7 points at it. Node 1 asks to marry the neighbour that is
        # chosen in a list on the page.
        self.going.type("fault 1 null false")
        self.wait_until_shown(2)
        self.compare(gus, [1, 4])
        for partner, told in (("2", "denied, since the guard of marriage "), ("7", "granted, as event 4; ")):
            choice: Any = Select(self.driver.find_element("css selector", "#nodes section:first-child select"))
            choice.select_by_value(partner)
            self.assertIn(f"step 2, marriage: {told}", self.press_rule(1, "marriage"))
        self.close(3)
        self.compare(gus, [1, 4])
        self.going.type("link 1 4")
        self.wait_until_shown(4)
        self.compare(gus, [1, 4])
        gus.bye()
        self.wait_for_seats("gus, by hand (1 of 7 seats are taken)")
        self.assertEqual(self.going.end(), 0, self.going.lines)
        self.wait_until_out("the class is over")
        marks = json.loads((self.going.folder / "marks.json").read_text(encoding="utf-8"))
        granted = {name: row["granted"] for name, row in marks["runs"][0]["students"].items()}
        self.assertEqual({name: sum(rules.values()) for name, rules in granted.items()}, {"gus": 2, "hana": 0, "ines": 0, "jonas": 0})
        self.check_no_key_is_kept()

    def enter_beside(self, name: str) -> Client:
        """Returns a connection of a student's program, beside the page."""
        client = Client(self.going.port, name, KEYS[name])
        self.addCleanup(client.hang_up)
        return client

    def check_no_key_is_kept(self) -> None:
        """Checks that no file directly in the run's folder contains a key, except for the lab and its copy. The record,
        in a folder of its own, has the keys of the hellos."""
        for file in self.going.folder.iterdir():
            if file.is_file() and file.name not in ("lab.toml", "journal.lab"):
                for key in (*KEYS.values(), read(CYCLE).teacher[1]):
                    self.assertNotIn(key.encode(), file.read_bytes(), file)

    def test_in_a_quiz_the_page_does_not_show_which_rules_can_be_applied(self) -> None:
        """In a quiz, the page's HTML has none of the texts by which it otherwise shows the rule of a privileged node:
        the description of the node, an attribute with a rule, and the letter U for update. A move can be asked for all
        the same. After the quiz the rule is shown again."""
        self.begin()
        self.open()
        self.come()
        self.wait_until_in()
        self.assertEqual((self.card(4)["holding"], self.card(4)["acts"]), (["update"], ["Node 4: update m"]))
        self.assertEqual(self.driver.find_element("id", "told").text, "1 of your 2 nodes can move")
        self.driver.find_element("id", "quiz").click()
        for node in (1, 4):
            self.assertEqual((self.card(node)["holding"], self.card(node)["acts"], set(self.card(node)["guards"])), ([], [], {""}))
        page = self.driver.execute_script("return document.getElementById('stage').innerHTML")
        self.assertEqual(re.findall('privileged: |data-rule="[a-z]|>U</text>', page), [])
        self.assertIn("step 0, update: granted", self.press_rule(4, "update"))
        self.driver.find_element("id", "quiz").click()
        until(self.driver, lambda _: self.card(4)["holding"] == ["update"])

    def test_only_a_student_with_the_right_key_takes_a_seat_and_only_while_the_page_is_open(self) -> None:
        """A name and a key after the address, as a printed slip has them, enter at once, and vanish from the
        address."""
        self.begin()
        self.open()
        self.wait_for_seats("nobody (0 of 7 seats are taken)")
        self.come("gus", "heron-32")
        self.wait_until_out("the hello was denied, since name and key do not match (clause 2, unknown)")
        self.wait_for_seats("nobody (0 of 7 seats are taken)")
        self.come("tess", read(CYCLE).teacher[1])
        self.wait_until_out("tess has no node in this network")
        self.come("gus")
        self.wait_until_in()
        self.open("#name=hana&key=swift-86")
        self.wait_until_in()
        self.assertEqual(self.driver.current_url, self.address)
        self.wait_for_seats("hana, by hand (1 of 7 seats are taken)")
        self.assertEqual(self.driver.find_element("id", "who").text, "· hana")
        self.driver.find_element("id", "leave").click()
        self.wait_until_out("you clicked Leave")
        self.wait_for_seats("nobody (0 of 7 seats are taken)")
        self.come("hana")
        self.wait_until_in()
        self.driver.get("about:blank")
        self.wait_for_seats("nobody (0 of 7 seats are taken)")
        self.check_no_key_is_kept()

    def test_a_student_is_turned_away_while_there_is_no_seat_and_can_enter_later(self) -> None:
        """The lab allows two connections: that of the desk and one more."""
        small = self.file("small.toml", CYCLE.read_text(encoding="utf-8").replace("sessions = 8", "sessions = 2"))
        self.begin(small)
        other = self.enter_beside("hana")
        self.open()
        self.come()
        self.wait_until_out("busy: all seats are taken; try again later")
        other.bye()
        self.wait_for_seats("nobody (0 of 1 seats are taken)")
        self.come()
        self.wait_until_in()
        self.assertEqual(self.press_rule(4, "update"), GRANTED)

    def test_the_page_fits_windows_of_four_sizes_and_is_readable_in_both_themes(self) -> None:
        """No part is wider than the window, and no button is too low for a finger (on a phone) or a mouse."""
        self.begin()
        self.addCleanup(resize, self.driver, None)
        self.addCleanup(show_as, self.driver)
        for size in WINDOWS:
            resize(self.driver, size)
            self.open()
            self.assertLessEqual(self.driver.execute_script(WIDE), size[0])
            self.come()
            self.wait_until_in()
            self.press_rule(4, "seduction")
            self.assertLessEqual(self.driver.execute_script(WIDE), size[0])
            high = self.driver.execute_script("return [...document.querySelectorAll('button')].filter((it) => it.offsetWidth)"
                                              ".map((it) => it.getBoundingClientRect().height)")
            self.assertGreaterEqual(min(high), 36 if size == PHONE else 24)
            for theme in ("light", "dark"):
                show_as(self.driver, theme)
                with self.subTest(size=size, theme=theme):
                    check_readable(self, self.driver, size, 40)  # The page has more than 40 texts.


class Wire(InRoom):
    """HTTP requests to the page's server without a browser."""

    def ask(self, address: str, verb: str, path: str, body: object = None, **head: str) -> tuple[http.client.HTTPResponse, bytes]:
        """Sends a request for `path` to the page's server, which has this address. A `body` that isn't bytes is sent as
        JSON. `head` are headers besides the right Host, or in its place. Returns the answer and its bytes."""
        parts = urlsplit(address)
        connection = http.client.HTTPConnection("127.0.0.1", parts.port or 0, timeout=LIMIT)
        self.addCleanup(connection.close)
        sent = body if isinstance(body, bytes) else None if body is None else json.dumps(body).encode()
        connection.request(verb, path, sent, {"Host": parts.netloc} | head)
        answer = connection.getresponse()
        return answer, answer.read()

    def enter(self, address: str, name: str, key: str) -> Rows:
        """Sends a hello to the page's server at an address. Returns the answer, which gets a line after each change."""
        rows = Rows(address, name, key)
        self.addCleanup(rows.connection.close)
        return rows

    def test_the_page_receives_no_hidden_register_no_key_and_no_name_of_others(self) -> None:
        """Faults at node 6 change nothing in the rows that the page receives, except for the number of the
        configuration. Moves of node 6 and of node 99, which doesn't exist, are denied in the same way. The token by
        which the page names its seat is only in the rows."""
        going = Going(self, CYCLE, "--close", "by-hand", "--play", str(a_port()))
        address = going.until("^page for playing by hand http").removeprefix("page for playing by hand ")
        _, page = self.ask(address, "GET", "/")
        rows = self.enter(address, "gus", KEYS["gus"])
        token = rows.next()["token"]
        seen = [rows.next()]
        # Gus isn't shown the registers of node 6, which only the nodes of hana and jonas may read.
        for number, registers in enumerate(("7 true", "null false", "5 true", "5 false"), 1):
            going.type(f"fault 6 {registers}")
            seen.append(rows.at(number))
        self.assertEqual([without_number(row) for row in seen[1:]], [without_number(seen[0])] * 4)
        replies = b""
        for node, rule in ((4, "update"), (6, "update"), (4, "marriage"), (99, "update")):
            answer, told = self.ask(address, "POST", "/move", {"token": token, "node": node, "at": 4, "rule": rule, "with": 5})
            self.assertEqual(answer.status, 200)
            replies += told
        self.assertEqual(re.findall(rb'"(?:ok|deny)": "([a-z-]+)"', replies), [b"move", b"not-owner", b"chosen", b"not-owner"])
        going.type("close")
        last = rows.at(5)
        self.assertEqual([look["node"] for look in last["nodes"]], [1, 4])
        self.assertEqual({near["node"] for look in last["nodes"] for near in look["near"]}, {2, 7, 3, 5})
        self.assertEqual(going.end(), 0, going.lines)
        self.assertEqual(rows.rest()[-1], {"ended": "the class is over"})
        lab = read(CYCLE)
        others = [name for name in (*lab.students, lab.teacher[0]) if name != "gus"]
        for where in (page, rows.bytes, replies):
            for key in (*lab.students.values(), lab.teacher[1]):
                self.assertNotIn(key.encode(), where)
            self.assertEqual(re.findall(rf"\b(?:{'|'.join(others)})\b".encode(), where), [])
        self.assertNotIn(token.encode(), page + replies)

    def test_a_resumed_run_serves_the_page_at_the_same_address(self) -> None:
        """The port that the option names is taken at first, so the page gets the next free one, and has it again when
        the run is resumed."""
        with socket.create_server(("127.0.0.1", a_port())) as taken:
            going = Going(self, CYCLE, "--close", "by-hand", "--play", str(taken.getsockname()[1]))
            page = going.until("^page for playing by hand http").removeprefix("page for playing by hand ")
        rows = self.enter(page, "gus", KEYS["gus"])
        self.assertEqual((rows.next()["who"], rows.next()["at"]), ("gus", 0))
        os.kill(going.server(), signal.SIGKILL)
        self.assertEqual(rows.rest()[-1].keys(), {"ended"})
        self.assertEqual(going.wait_for_end(), 4, going.lines)
        again = Going(self, None, "run", "--resume", going.folder)
        self.assertEqual(again.until("^page for playing by hand http").removeprefix("page for playing by hand "), page)
        rows = self.enter(page, "gus", KEYS["gus"])
        self.assertEqual((rows.next()["who"], rows.next()["at"]), ("gus", 0))

    def test_headers_protect_the_page_and_requests_of_a_wrong_host_or_form_are_refused(self) -> None:
        """No such request takes a seat."""
        with served(self) as hands:
            parts = urlsplit(hands.address)
            answer, page = self.ask(hands.address, "GET", "/")
            policy = dict(rule.split(" ", 1) for rule in (answer.headers["Content-Security-Policy"] or "").split("; "))
            hashes = {f"{kind}-src": hashed(text) for kind in ("style", "script")
                      for text in re.findall(rf"<{kind}>(.*?)</{kind}>", page.decode(), re.DOTALL)}
            self.assertEqual(policy, {"default-src": "'none'", "connect-src": "'self'", "base-uri": "'none'", "form-action": "'none'",
                                      "frame-ancestors": "'none'", **hashes})
            self.assertEqual(len(hashes), 2)
            self.assertNotIn(b"style=", page)
            for name, value in (("Cache-Control", "no-store"), ("Referrer-Policy", "no-referrer"), ("X-Content-Type-Options", "nosniff")):
                self.assertEqual(answer.headers[name], value)
            for elsewhere in ("page.example", f"page.example:{parts.port}", "127.0.0.1:1", "127.0.0.1", ""):
                for verb, path in (("GET", "/"), ("POST", "/enter"), ("POST", "/move")):
                    hello = {"name": "gus", "key": "a"} if verb == "POST" else None
                    self.assertEqual(self.ask(hands.address, verb, path, hello, Host=elsewhere)[0].status, 421)
            # Other paths, bodies that are too large, and tokens of no page get 404. Bodies of a wrong form get 400.
            rows: tuple[tuple[str, str, object, int], ...] = (
                ("GET", "/enter", None, 404), ("GET", "/?name=gus&key=heron-31", None, 404), ("POST", "/", {}, 404),
                ("POST", "/enter", b"", 400), ("POST", "/enter", b"[" * 900, 400), ("POST", "/enter", b"7", 400),
                ("POST", "/enter", {"name": "gus"}, 400), ("POST", "/enter", {"name": "gus", "key": 7}, 400),
                ("POST", "/enter", {"name": "gus", "key": "k" * 1000}, 404), ("POST", "/move", {"node": 4}, 404),
                ("POST", "/move", {"token": "x", "node": 4, "at": 0, "rule": "update"}, 404),
            )
            for verb, path, body, status in rows:
                self.assertEqual(self.ask(hands.address, verb, path, body)[0].status, status, (path, body))
            self.assertEqual(hands.seats, {})

    def test_a_move_of_a_wrong_form_is_answered_by_the_reason_and_not_sent(self) -> None:
        """A stand-in for the class's server gets only the hello of the page and its looks, and no move."""
        with served(self) as hands, Host(["late"]) as host:
            hands.show(host.port, print)
            rows = self.enter(hands.address, "gus", "a")
            token = rows.next()["token"]
            self.assertEqual(rows.next()["at"], 0)  # Only then the page has looked.
            wrong: tuple[tuple[dict[str, object], str], ...] = (
                ({}, 'the key "node" is missing'), ({"node": 4, "at": 0, "rule": "dance"}, 'rule is "dance", not one of'),
                ({"node": 4, "at": -1, "rule": "update"}, "at is a number out of range, not a whole number"),
                ({"node": 4, "at": 0, "rule": "marriage"}, 'the key "with" is missing'),
            )
            for more, why in wrong:
                answer, told = self.ask(hands.address, "POST", "/move", {"token": token} | more)
                self.assertEqual((answer.status, json.loads(told)["told"].startswith(why)), (400, True), told)
            self.assertEqual({json.loads(line)["do"] for line in host.lines}, {"hello", "look"})

    def test_the_page_is_told_why_its_connection_to_the_server_ended(self) -> None:
        """There is a reason for each last line of the server, for none, and for a server that isn't there."""
        words = {"late": "no hello was granted within ten seconds", "over": "the class is over",
                 "busy": "busy: all seats are taken", "long": "a line had more than 4096 bytes", "": "the server has closed the connection"}
        with served(self) as hands, Host(list(words)) as host:
            hands.show(host.port, print)
            for word, told in words.items():
                rows = self.enter(hands.address, "gus", "a")
                self.assertEqual(rows.next()["who"], "gus")
                self.assertEqual(rows.next()["at"], 0)
                host.go.set()
                last = rows.rest()[-1]
                self.assertTrue(last["ended"].startswith(told), (word, last))
                host.go.clear()
            self.assertEqual(hands.seats, {})
        _, text = self.hello_without_server(hands)
        self.assertIn("no server at port", text)

    def hello_without_server(self, hands: PlayServer) -> tuple[int, str]:
        """Sends a hello to a new server of the page, which is to connect to the same port as `hands`. No server of a
        class listens there any more. Returns the status of the answer and its text."""
        with served(self) as other:
            other.show(hands.students, print)
            answer, told = self.ask(other.address, "POST", "/enter", {"name": "gus", "key": "a"})
            return answer.status, json.loads(told)["told"]

    def test_an_open_page_is_told_when_its_server_stops(self) -> None:
        with Host([]) as host, served(self) as hands:
            hands.show(host.port, print)
            rows = self.enter(hands.address, "gus", "a")
            self.assertEqual((rows.next()["who"], rows.next()["at"]), ("gus", 0))
            hands.stop()
            self.assertIn("play again", rows.rest()[-1]["ended"])


class Host:
    """A stand-in for a class's server. It ends a connection at the next line after the event `go` is set, or at a
    bye. `lines` has all lines that came."""

    def __init__(self, ends: list[str]) -> None:
        """Listens at a free port. `ends` has the word of the last line on each connection in turn, or an empty text for
        a connection that ends without such a line."""
        self.ends, self.go, self.lines = ends, threading.Event(), list[bytes]()
        self.listener = socket.create_server(("127.0.0.1", 0))
        self.port: int = self.listener.getsockname()[1]

    def __enter__(self) -> Host:
        threading.Thread(target=self.serve, daemon=True).start()
        return self

    def __exit__(self, *_: object) -> None:
        self.go.set()
        self.listener.shutdown(socket.SHUT_RDWR)
        self.listener.close()

    def serve(self) -> None:
        """Serves one connection after another, one for each word in `ends` and one more, or until the listener is
        closed."""
        for word in [*self.ends, "over"]:
            try:
                its, _ = self.listener.accept()
            except OSError:
                return
            with its:
                self.answer(its, word)

    def answer(self, its: socket.socket, word: str) -> None:
        """Answers a hello on a connection and the looks after it. At the end sends the refusal `word`, unless it is
        empty."""
        for line in its.makefile("rb"):
            self.lines.append(line)
            asked = json.loads(line)
            if self.go.is_set() or asked["do"] == "bye":
                its.sendall(f'{{"refuse":"{word}"}}\n'.encode() if word else b"")
                return
            look: dict[str, Any] = {"at": 0, "chosen": None, "m": False, "near": [], "ok": "look", "p": None, "rule": None}
            told: dict[str, Any] = {"ok": "hello", "who": "gus"} if asked["do"] == "hello" else look | {"node": asked["node"]}
            its.sendall(json.dumps(told).encode() + b"\n")


@contextmanager
def served(test: unittest.TestCase) -> Iterator[PlayServer]:
    """Yields the server of the page for the cycle, without a server of the class. Stops it at the end."""
    hands = open_play_page(a_port(), "cycle", read(CYCLE))
    hands.show(1, print)  # At port 1 no server listens.
    try:
        yield hands
    finally:
        if not hands.leaves:  # The test may have stopped it already.
            hands.stop()


def without_number(row: dict[str, Any]) -> dict[str, Any]:
    """Returns the values that a page shows, without the number of the configuration."""
    return row | {"at": 0, "picture": re.sub('data-number="[0-9]+"', "", row["picture"])}


if __name__ == "__main__":
    unittest.main()
