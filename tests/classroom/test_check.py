"""`./class check`: labs that the program refuses, and every warning. A person's *key* is the secret in the lab, and the
keys of a *table* in the lab's file are those of TOML."""
from __future__ import annotations

import math
import unittest

from classroom.core import lab as labs
from classroom.setup.check import ABOVE, bits, effort, hint_of, key_warnings, place_of_error, unknown_keys
from classroom.setup.positions import table as table_at
from classroom.setup.positions import tables
from tests.classroom.help import EXAMPLES, InRoom, call_class
from tests.common.limits import MOST


def table(head: str, *lines: str) -> str:
    """Returns the text of a table with this header in a lab's file, after an empty line."""
    return "\n".join(("", head, *lines, ""))


# A lab without an error or a reason for a warning.
GOOD = "".join((
    "events = 1000\nsessions = 4\nlinks = [[11, 12], [12, 17]]\n",
    table("[teacher]", 'name = "tess"', 'key = "0f3b5a7c9d1e2f48a6b8c0d2e4f61357"'),
    table("[[student]]", 'name = "ana"', 'key = "1f3b5a7c9d1e2f48a6b8c0d2e4f61357"'),
    table("[[student]]", 'name = "jonas"', 'key = "2f3b5a7c9d1e2f48a6b8c0d2e4f61357"'),
    table("[[node]]", "id = 11", 'owner = "ana"'),
    table("[[node]]", "id = 12", 'owner = "ana"'),
    table("[[node]]", "id = 17", 'owner = "jonas"'),
))
# An old and a new text: node 12 gets a second owner.
PAIR = ('id = 12\nowner = "ana"', 'id = 12\nowners = ["ana", "jonas"]')


class Check(InRoom):
    """A correct lab, with one change in each test."""

    def says(self, status: int, *wanted: str, change: tuple[str, str] = ("", ""), text: str = GOOD) -> str:
        """Checks the exit status of `./class check`, and that its output contains the texts `wanted`. The lab is `text`
        with `change`, an old text and a new one. Returns the output."""
        self.assertTrue(change[0] in text)
        done = call_class("check", self.file("lab.toml", text.replace(*change, 1) if change[0] else text))
        self.assertEqual(done.returncode, status, done.stdout + done.stderr)
        for line in wanted:
            self.assertIn(line, done.stdout)
        return done.stdout

    def warns(self, *wanted: str, change: tuple[str, str]) -> None:
        """Checks that `./class check` accepts the lab GOOD with `change`, and prints these warnings and no others."""
        self.assertEqual(self.says(5, *wanted, change=change).count("warning: "), len(wanted))

    def test_a_good_lab_gets_no_warning(self) -> None:
        self.assertEqual(self.says(0), "ok: 3 nodes, 2 links, 2 students\n")

    def test_for_a_refused_lab_the_error_its_line_and_a_suggestion_are_printed(self) -> None:
        """The program's errors number nodes, links and people from 0. Person 0 is the teacher."""
        self.says(2, "lab: node 2: no such owner", 'line 27 (the node with identifier 17): owner = "jo"',
                  change=('id = 17\nowner = "jonas"', 'id = 17\nowner = "jo"'))
        self.says(2, "lab: node.owner is missing", "line 25 (the node with identifier 17): [[node]]",
                  "  This node has neither `owner` nor `owners`. Write one of the two\n", "line 27: onwer isn't known here. Did you mean owner?",
                  change=('id = 17\nowner', 'id = 17\nonwer'))
        self.says(2, "lab: link 1: no such node", "line 3: links", change=("[12, 17]", "[12, 18]"))
        self.says(2, "lab: principal 0: bad name", 'line 5 (the teacher): [teacher]', change=('"tess"', '"Tess"'))
        self.says(2, "lab: principal 2: bad name", 'line 13 (student number 2): [[student]]', change=('"jonas"\nkey = "2f', '"jonas"\nkey = "\\u00e4'))
        self.says(2, "lab: events is of the wrong kind", 'line 1: events = "many"', change=("events = 1000", 'events = "many"'))
        self.says(2, "lab: not a TOML document", "line 2 ", change=("sessions = 4", "sessions = = 4"))
        self.says(2, "lab: node 1: identifier stands twice", "line 22 (the node with identifier 11)", "  An earlier node has the same `id`\n",
                  change=("id = 12", "id = 11"))
        self.says(2, "lab: sessions is out of its limits", f"  `sessions` has to be from 1 to {MOST['sessions']}\n",
                  change=("sessions = 4", "sessions = 99"))

    def test_the_table_with_a_missing_or_wrong_value_is_found_among_others_of_its_name(self) -> None:
        """The program's error doesn't say which node or student it is about. In each lab, other tables of the same name
        are correct. The lines are those of GOOD."""
        integer = "has to be an integer, without quotes"
        self.says(2, "lab: node.id is missing", "line 21: [[node]]", change=("id = 12\n", ""))
        self.says(2, "lab: student.key is missing", "line 13 (student number 2): [[student]]", change=('key = "2f3b5a7c9d1e2f48a6b8c0d2e4f61357"', ""))
        self.says(2, "lab: student.name is of the wrong kind", "line 14 (student number 2): name = 5", "  `name` has to be a text in quotes\n",
                  change=('name = "jonas"', "name = 5"))
        self.says(2, "lab: node.id is of the wrong kind", "line 22 (the node with identifier 1): id = 1.2", f"  `id` {integer}\n",
                  change=("id = 12", "id = 1.2"))
        self.says(2, "lab: node.owner is of the wrong kind", "line 27 (the node with identifier 17): owner = 5",
                  "  `owner` has to be the name of one student, in quotes\n", change=('id = 17\nowner = "jonas"', "id = 17\nowner = 5"))
        self.says(2, "lab: node.owners is of the wrong kind", "line 23 (the node with identifier 12): owners = []",
                  "  `owners` has to be a list of one or two names of students", change=('id = 12\nowner = "ana"', "id = 12\nowners = []"))
        self.says(2, "lab: node.p is of the wrong kind", 'line 24 (the node with identifier 12): p = "11"',
                  "  `p` has to be the `id` of a neighbour: an integer, without quotes\n",
                  text=GOOD.replace("id = 11", "id = 11\np = 12").replace("id = 12", 'id = 12\np = "11"'))
        self.says(2, "lab: node.m is of the wrong kind", "line 24 (the node with identifier 12): m = 1", "  `m` has to be true or false, without quotes\n",
                  text=GOOD.replace("id = 11", "id = 11\nm = true").replace("id = 12", "id = 12\nm = 1"))
        self.says(2, "lab: link is of the wrong kind", "line 4: [12]]", "  Each link has to be a list of two integers", change=(" [12, 17]]", "\n  [12]]"))
        self.says(2, "lab: teacher is of the wrong kind", "line 5: [[teacher]]", "below one line [teacher]\n", change=("[teacher]", "[[teacher]]"))
        self.says(2, "lab: sessions is of the wrong kind", 'line 2: sessions = "4"', f"  `sessions` {integer}\n", change=("sessions = 4", 'sessions = "4"'))

    def test_a_table_that_is_not_found_has_no_line(self) -> None:
        """A key that isn't in the file at all has none. Neither has a wrong value if Python's reader can't read the file
        and several tables have the key, and an element of `links` that isn't a list."""
        for text, error in (("", "lab: events is missing"), ("", "lab: node.owner is missing"),
                            ("[[node]]\nm = 1\n[[node]]\nm = \n", "lab: node.m is of the wrong kind"),
                            ("links = [[1, 2], 3]\n", "lab: link is of the wrong kind")):
            self.assertEqual(place_of_error(text, error), (None, ""), error)

    def test_errors_of_the_program_that_need_a_hint_have_one_and_others_have_none(self) -> None:
        """The other errors say by themselves what is wrong."""
        for error in ("lab: principal 2: bad name or key", "lab: node 0: owner and owners", "lab: node 1: identifier out of range",
                      "lab: node 1: identifier stands twice", "lab: principal 1: name stands twice", "lab: node 1: owner stands twice",
                      "lab: link 3: stands twice", "lab: too many nodes", "lab: events is out of its limits",
                      "lab: sessions is out of its limits", "lab: student is out of its limits", "lab: node 3: no such owner",
                      "lab: link 1: no such node", "lab: node 1: p is not a neighbour", "lab: node.owner is missing",
                      *(f"lab: {key} is of the wrong kind" for key in (
                          "events", "sessions", "teacher", "teacher.name", "teacher.key", "student", "student.name", "student.key", "node", "node.id",
                          "node.owner", "node.owners", "node.p", "node.m", "links", "link"))):
            self.assertNotEqual(hint_of(error), "", error)
        for error in ("lab: no nodes", "lab: link 1: a loop", "lab: events is missing", "lab: node.id is missing"):
            self.assertEqual(hint_of(error), "", error)

    def test_a_missing_file_has_status_4(self) -> None:
        self.assertEqual(call_class("check", self.room / "none.toml").returncode, 4)

    def test_keys_of_a_table_that_the_format_does_not_have_are_named_with_a_suggestion(self) -> None:
        """Since the wrong key `link` is ignored, the network has no links. The other warnings of the first lab follow
        from this."""
        self.warns("line 3: link isn't known here, so it is ignored. Did you mean links?", "node 11 has no neighbour",
                   "node 12 has no neighbour", "node 17 has no neighbour", "the network isn't connected: it has 3 parts",
                   "no node is privileged at the beginning", change=("links =", "link ="))
        self.warns("line 8: links isn't known here, so it is ignored. Write links above the first line in brackets, such as [teacher]",
                   change=('61357"\n\n[[student]]\nname = "ana"', '61357"\nlinks = []\n\n[[student]]\nname = "ana"'))
        self.warns("line 20: colour isn't known here, so it is ignored", change=('owner = "ana"', 'owner = "ana"\ncolour = "red"'))

    def test_a_person_s_key_is_named_if_it_is_public_or_easy_to_guess(self) -> None:
        """The second key has ten different letters. Each counts as drawn from at most twice as many characters, so the
        key has at most 10 log2 20 bits, which is about 43. A character repeated 60 times has hardly any bits."""
        self.warns("the key of ana is that of an example lab", change=("1f3b5a7c9d1e2f48a6b8c0d2e4f61357", "a-key"))
        self.warns("the key of ana may be easy to guess: it has at most 43 bits, and guessing it takes at most",
                   change=("1f3b5a7c9d1e2f48a6b8c0d2e4f61357", "abcdefghij"))
        self.assertLess(bits("a" * 60), 64)
        self.assertGreater(bits("0f3b5a7c9d1e2f48a6b8c0d2e4f61357"), 100)

    def test_a_key_of_words_is_easy_to_guess_if_it_has_less_than_new_draws(self) -> None:
        """`./class new` draws three words of a list and two digits. A key with at least three words of the list counts
        as drawn, and any other key needs more bits."""
        drawn = "amber-lilac-tonic-42"
        self.assertAlmostEqual(bits(drawn), 36 + math.log2(100))  # The list has 4096 words, so each word has 12 bits.
        cases = ((drawn, ""), ("ant-ant-ant-11", ""), ("amber-lilac-tonic-gravel", ""),
                 ("amber-lilac-tonic-4", "39 bits, and guessing it takes at most 261 years"),
                 ("amber-lilac-42", "31 bits, and guessing it takes at most 233 days"),
                 ("amber", "12 bits, and guessing it takes at most 49 seconds"), ("1111-1111-1111-1111", "38 bits, and guessing it takes at most 105 years"),
                 ("Amber-lilac", "48 bits, and guessing it takes at most 77930 years"))
        for key, warning in cases:
            lab = labs.Lab(1000, 4, ("tess", "0f3b5a7c9d1e2f48a6b8c0d2e4f61357"), {"ana": key}, [], [])
            warned = [line.partition(". Write")[0] for line in key_warnings(lab)]
            self.assertEqual(warned, [f"the key of ana may be easy to guess: it has at most {warning}. It may take much less"] if warning else [], key)

    def test_the_time_in_which_a_key_can_be_guessed_has_a_fitting_unit(self) -> None:
        """The time follows from the bits of the key, and from the number of wrong keys that the server answers in a
        second (`keys.DENIALS`, about 83)."""
        for key, time in (("amber-12", "1 hour"), ("abcdefghijkl", "14 million years"), ("abcdefghijklm", "944 million years"),
                          ("1234567890123456789", "4 billion years")):
            self.assertEqual(effort(key), time)

    def test_a_key_with_a_letter_of_no_kind_counts_as_drawn_from_128_more_letters(self) -> None:
        """The kinds are lower case, upper case, digits and punctuation, all in ASCII. But no key counts as drawn from
        more letters than twice the number of the different ones in it. `bits` returns the length of a key times the
        binary logarithm of the number of letters from which it counts as drawn."""
        for key, least in (("äöüßéèêàâçñøåæœłżźčš", 100), ("шифр из восьми слов", 80), ("äÄ1!" * 8, 95),
                           ("horse battery staple", 80)):
            self.assertGreater(bits(key), least, key)
            self.assertGreaterEqual(bits(key + "ж"), bits(key), key)
        self.assertLess(bits(" " * 60), 64)
        self.assertLess(bits("äö" * 8), 64)
        # 53 different letters, so it counts as drawn from twice as many at most.
        self.assertAlmostEqual(bits("abcdefghijklmnopqrstuvwxyz ABCDEFGHIJKLMNOPQRSTUVWXYZ"), 53 * math.log2(106))
        # 256 letters of no kind, each with the seven bits of 128 letters.
        self.assertAlmostEqual(bits("".join(map(chr, range(0x410, 0x510)))), 256 * 7)
        for key, told in (("äöüßéèêàâçñøåæœłżźčš", []),
                          ("äöüßéè", ["the key of ana may be easy to guess: it has at most 22 bits, and guessing it takes at most 10 hours. "
                                      "It may take much less"])):
            lab = labs.Lab(1000, 4, ("tess", "0f3b5a7c9d1e2f48a6b8c0d2e4f61357"), {"ana": key}, [], [])
            self.assertEqual([line.partition(". Write")[0] for line in key_warnings(lab)], told)
        self.assertGreater(bits("abcdefghijklmnopqrstuvwxyzä"), bits("abcdefghijklmnopqrstuvwxyza"))

    def test_students_without_a_node_and_nodes_without_a_neighbour_are_named(self) -> None:
        self.warns("the student ana has no node", change=('id = 11\nowner = "ana"\n\n[[node]]\nid = 12\nowner = "ana"',
                                                           'id = 11\nowner = "jonas"\n\n[[node]]\nid = 12\nowner = "jonas"'))
        self.warns("node 17 has no neighbour", "the network isn't connected: it has 2 parts", change=(", [12, 17]", ""))

    def test_nodes_with_two_owners_are_named_but_no_more_than_eight(self) -> None:
        self.warns("warning: two students own node 12: the one with the quicker program gets most of the moves there",
                   change=PAIR)
        students = self.file("students", "Ana\nBen\nCyd\n")
        self.assertEqual(call_class("new", self.room / "pairs.toml", "--students", students, "--pairs", "--nodes", "10").returncode, 0)
        self.assertIn("two students own nodes 1, 2, 3, 4, 5, 6, 7, 8, ...: ", call_class("check", self.room / "pairs.toml").stdout)

    def test_too_few_sessions_or_events_are_named_with_the_number_that_is_enough(self) -> None:
        """For 3 nodes and 2 links the bound on moves is 3 * 3 + 2 * 2 = 13. With a closed step for each move, 26 events
        are enough."""
        self.warns("`sessions` is 2, so the 2 students and the teacher can't all be connected at once. Raise `sessions` to 3",
                   change=("sessions = 4", "sessions = 2"))
        self.warns("`events` is 25, which may be too few: the class may need 13 moves and as many closed steps. Raise `events` to 26",
                   change=("events = 1000", "events = 25"))
        self.says(0, change=("events = 1000", "events = 26"))

    def test_for_more_people_than_any_lab_has_sessions_several_labs_are_suggested(self) -> None:
        """The limit on `sessions` leaves room for `most - 1` students beside the teacher. GOOD has two students, and
        the test adds the others."""
        most = MOST["sessions"]
        for students, rest in ((most - 1, f"Raise `sessions` to {most}\n"),
                               (most, f"No lab can have more than {most}: make several labs by ./class new --groups\n")):
            more = "".join(table("[[student]]", f'name = "s{number}"', f'key = "{number:032x}"') for number in range(students - 2))
            self.says(5, f"warning: `sessions` is 4, so the {students} students and the teacher can't all be connected at once. {rest}", text=GOOD + more)

    def test_a_complete_network_of_256_nodes_needs_67072_events_which_a_lab_may_have(self) -> None:
        """A run of n nodes and L links has at most 3n + 2 min(L, n²/4) moves. For this network, that is 33,536 moves.
        Each move is an event, and so is the close after it."""
        self.assertLessEqual(67072, MOST["events"])
        for events, is_few in ((67071, True), (67072, False)):
            lab = self.room / f"{events}.toml"
            done = call_class("new", lab, "--students", self.file("students", "Ana\nBen\n"), "--family", "complete", "--nodes", "256",
                              "--events", str(events))
            self.assertEqual(done.returncode, 0, done.stderr)
            found = "`events` is 67071, which may be too few: the class may need 33536 moves and as many closed steps" in call_class("check", lab).stdout
            self.assertEqual(found, is_few)

    def test_a_lab_that_is_stable_at_the_beginning_gets_a_warning(self) -> None:
        married = GOOD.replace("id = 11", "id = 11\np = 12\nm = true").replace("id = 12", "id = 12\np = 11\nm = true", 1)
        self.says(5, "no node is privileged at the beginning", text=married)

    def test_example_labs_get_warnings_but_none_about_unknown_keys_or_seats(self) -> None:
        """They have a status for warnings, since their keys are public."""
        for lab in sorted(EXAMPLES.glob("*.toml")):
            done = call_class("check", lab)
            self.assertEqual(done.returncode, 5)
            self.assertNotIn("isn't known here", done.stdout)
            self.assertNotIn("can't", done.stdout)


class Tables(unittest.TestCase):
    """Finding the lines of tables and keys, and unknown keys."""

    def hints(self, *lines: str) -> list[tuple[int, str, str | None]]:
        """Returns the hints about unknown keys in a file with these lines. A hint has the number of the line, the key,
        and the known key to suggest, or None if none is similar. For a key that belongs above all tables, ABOVE stands
        in place of the known key."""
        return list(unknown_keys("\n".join(lines) + "\n"))

    def check_hints(self, *lines: str) -> None:
        """Checks that these lines and a line with the unknown key `sesions` after them have exactly two hints: about
        the key `note` in the first line, and about `sesions`."""
        below = len(lines) + 1
        self.assertEqual(self.hints(*lines, "sesions = 4"), [(1, "note", "node"), (below, "sesions", "sessions")])

    def test_an_unknown_table_in_braces_gets_a_hint_and_keys_in_it_get_none(self) -> None:
        for value in ("{ a = 1 }", "{a=1}", "{}", "{ a = 1 } # more", "{ a = { b = [1, 2] } }",
                      "[{ a = 1 }, { b = 2 }]", "[ { a = 1 } ]", "[]", "[1, 2]", '"{"', '{ a = "}" }', "['[']",
                      '{ a = "\\"{" }'):
            self.check_hints(f"note = {value}")
        self.check_hints("note = [", "  { a = 1 },", "  { b = { c = 2 } }", "]")
        self.check_hints("note = [{ a = 1 },", "  { sesions = 2 }]")
        self.check_hints("note = [{ a = [", "  1 ] }, {", "  sesions = 2 }]")

    def test_a_hint_about_an_unknown_table_or_key_names_the_most_similar_one(self) -> None:
        self.assertEqual(self.hints("nodes = [{ id = 1 }]", "links = []"), [(1, "nodes", "node")])
        self.assertEqual(self.hints("[[nodes]]", "id = 1"), [(1, "[nodes]", "node")])
        self.assertEqual(self.hints("[[student]]", "note = { name = 1 }", "nam = 'a'"),
                         [(2, "note", None), (3, "nam", "name")])
        self.assertEqual(self.hints("[[student]]", "node = [{ idd = 1 }]", "kei = 'a'"),
                         [(2, "node", ABOVE), (3, "kei", "key")])

    def test_known_tables_in_braces_are_found_with_the_lines_of_their_keys(self) -> None:
        """Each row has the lines of a file, and the number of ana's line. The table of ben is on the next line. The
        first table that is found is the document itself."""
        ana, ben = "{ name = 'ana', key = '{' }", '{ name = "ben", key = "]" }'
        shapes: tuple[tuple[tuple[str, ...], int], ...] = (
            ((f"student = [{ana},", f"  {ben}]"), 1), ((f"student = [ {ana},", ben, "]"), 1),
            ((f"student = [{ana}", f", {ben} ] # all"), 1), (("student = [", f"  {ana},", f"  {ben},", "]"), 2),
            (("student = [ # two", f"  {ana},", f"  {ben} ]"), 2),
            (("student = [", "", f"{ana}, # one", ben, "]", ""), 3),
        )
        for lines, first in shapes:
            found = [(it.name, it.line, it.keys) for it in tables("\n".join(lines))]
            self.assertEqual(found[1:], [("student", at, {"name": at, "key": at}) for at in (first, first + 1)], lines)
            self.assertEqual(self.hints(*lines, "sesions = 4"), [(len(lines) + 1, "sesions", "sessions")], lines)

    def test_unknown_keys_in_known_tables_in_braces_get_hints(self) -> None:
        """The hints about keys outside of braces come first. Nothing inside of the unknown table `more` gets a hint."""
        self.assertEqual(self.hints("teacher = { nam = 'tess', key = 'k' }", "sesions = 4"),
                         [(2, "sesions", "sessions"), (1, "nam", "name")])
        self.assertEqual(self.hints("teacher = { name = 'tess', more = { keys = 1 } }"), [(1, "more", None)])
        self.assertEqual(self.hints("node = [{ id = 1, onwer = 'ana' }, { idd = 2 }]"),
                         [(1, "onwer", "owner"), (1, "idd", "id")])

    def test_a_table_in_braces_with_a_strange_key_gets_no_hint_but_the_next_line_does(self) -> None:
        """The key of such a table is quoted, dotted or missing."""
        for line in ('"note" = { idd = 1 }', "note.more = { idd = 1 }", "note.more = [{ idd = 1 },", "{ idd = 1 }"):
            self.assertEqual(self.hints("node = [{ id = 1 }]", line, "sesions = 4"), [(3, "sesions", "sessions")], line)

    def test_a_table_is_found_by_its_name_and_its_index_among_those_of_this_name(self) -> None:
        """The rows have the lines of the tables of each name. For an index after the last one there is no table. The
        student in the table of the teacher isn't one of the lab's students."""
        text = """student = [{ name = 'ana', note = { a = 1 } },
            { name = 'ben' }]
            node = [
              { id = 1, owners = [
              'ana', 'ben'] }, { id = 2 },
              { id = 3 },
            ]

            [teacher]
            student = [{ name = 'none' }]
        """
        for name, lines in (("student", [1, 2]), ("node", [4, 5, 6]), ("teacher", [9])):
            found = [table_at(text, name, index) for index in range(len(lines) + 1)]
            self.assertEqual([it and it.line for it in found], [*lines, None])

    def test_a_bracket_that_is_not_closed_hides_no_key_after_it(self) -> None:
        self.assertEqual(self.hints("links = [[1, 2], [2, 3]", "sesions = 4"), [(2, "sesions", "sessions")])
        self.assertEqual(self.hints("student = [{ name = 'ana' },", "sesions = 4"), [(2, "sesions", "sessions")])
        self.assertEqual(self.hints("teacher = {", "  nam = 'tess',", "[[node]]", "i = 1"),
                         [(2, "nam", "name"), (4, "i", "id")])
        self.check_hints("note = ]}")


if __name__ == "__main__":
    unittest.main()
