"""`./class new`: the names of students, class lists, and the labs and slips that it makes. A *slip* is the file with
what a student needs to connect. A *seat* of the server serves one student at a time. Students of one *room* are in the
same networks."""
from __future__ import annotations

import argparse
import random
import re
import shutil
import tempfile
import tomllib
import unittest
import unittest.mock
from pathlib import Path

from classroom import words as words_of
from classroom.core import lab as labs
from classroom.core import lists, program
from classroom.core.lists import Person
from classroom.setup import names
from tests.classroom.help import InRoom, call_class
from tests.common.limits import MOST

# Names in many scripts, and names with digits, without letters, or too long for a lab.
SCRIPTS = (
    "Zoë Müller", "Łukasz Żółć", "Иван Жуков", "Γιώργος Παπάς", "かな さくら", "김철수", "გიორგი", "王小明", "محمد علي", "שרה לוי",
    "आरव शर्मा", "สมชาย ใจดี", "Արամ", "O'Brien", "1337", "-", "a" * 80, "José María de la Cruz-Ñuñez y Todos los Santos",
)
FORM = re.compile(r"[a-z][a-z0-9-]{0,31}")
SEATS = MOST["sessions"] - 1  # of students


class Names(unittest.TestCase):
    """Names in a class list, and in the lab. `names.all_of` returns the people by their names in the lab."""

    def test_names_in_all_scripts_get_different_names_of_the_form_that_a_lab_allows(self) -> None:
        """Each name is in the list twice."""
        made = names.all_of(map(Person, [*SCRIPTS, *SCRIPTS]))
        self.assertEqual(len(made), 2 * len(SCRIPTS))
        for name in made:
            self.assertRegex(name, FORM)
            self.assertLessEqual(len(name), 32)

    def test_lab_name_spells_letters_of_many_scripts_in_latin_letters(self) -> None:
        """Chinese characters aren't known, so nothing is left of such a name."""
        known = {"Zoë Müller": "zoe-mueller", "Łukasz Żółć": "lukasz-zolc", "Иван Жуков": "ivan-zhukov", "김철수": "gimceolsu",
                 "かな さくら": "kana-sakura", "O'Brien": "obrien", "1337": "s-1337", "王小明": "",
                 "Müller, Zoë": "zoe-mueller", "محمد علي": "mhmd-aly", "שרה לוי": "shrh-lvy", "आरव शर्मा": "aarava-sharamaaa",
                 # Letters with a hamza above or below, such as the first one of أحمد, and the hamza alone.
                 "أحمد": "ahmd", "إيمان مؤمن": "ayman-mwmn", "عائشة": "aaysha", "علاء": "ala", "موسى": "mwsa"}
        for name, form in known.items():
            self.assertEqual(names.lab_name(name), form)

    def test_a_number_is_added_to_a_name_that_is_taken(self) -> None:
        """The fifth person, whose name has no known letter, is called by the number in the list."""
        listed = map(Person, ["Ana", "ana", "Ána", "Teacher", "王小明"])
        self.assertEqual(list(names.all_of(listed, ["teacher"])), ["ana", "ana-2", "ana-3", "teacher-2", "s-5"])

    def test_the_identifier_in_the_list_is_added_to_equal_names(self) -> None:
        """A person without a known letter is called by the identifier. Long names are cut before it."""
        listed = [Person("Ana Lima", "77"), Person("Ben", "78"), Person("Ana Lima", "A 9"), Person("王小明", "80"), Person("-", "")]
        made = names.all_of(listed)
        self.assertEqual(list(made), ["ana-lima-77", "ben", "ana-lima-a-9", "s-80", "s-5"])
        self.assertEqual(list(made.values()), listed)
        long = names.all_of([Person("a" * 80, "123456"), Person("a" * 80, "123457")])
        self.assertEqual(list(long), [f"{'a' * 25}-123456", f"{'a' * 25}-123457"])


class Lists(InRoom):
    """Class lists in different forms."""

    def people(self, content: bytes, name: str = "list.csv", **words: str) -> list[tuple[str, str]]:
        """Writes a file with this content and name. Returns the names and identifiers of the people in it. `words` are
        options that name columns."""
        path = self.room / name
        path.write_bytes(content)
        asked = argparse.Namespace(**{"column": None, "first_name": None, "last_name": None, "id": None} | words)
        return [(person.written, person.id) for person in lists.read(path, asked).people]

    def test_lists_are_read_in_utf_8_utf_16_and_latin_1(self) -> None:
        text = "Name;ID number\nZoë Müller;1\nŁukasz Żółć;2\n"
        wanted = [("Zoë Müller", "1"), ("Łukasz Żółć", "2")]
        for encoding in ("utf-8", "utf-8-sig", "utf-16", "utf-16-le", "utf-16-be"):
            self.assertEqual(self.people(text.encode(encoding)), wanted, encoding)
        self.assertEqual(self.people("Name,ID\r\nZoë Müller,1\r\n".encode("latin-1")), [("Zoë Müller", "1")])
        self.assertEqual(self.people("Zoë\nBen\n".encode("utf-16"), "names.txt"), [("Zoë", ""), ("Ben", "")])

    def test_exports_of_moodle_and_canvas_are_read_without_options(self) -> None:
        """The row of points and the row of the test student in an export of Canvas are no people."""
        moodle = '"First name","Last name","ID number","Email address"\nZoë,Müller,1001,z@x.example\nAna,"Lima, dos",1002,a@x.example\n'
        self.assertEqual(self.people(moodle.encode("utf-8-sig")), [("Zoë Müller", "1001"), ("Ana Lima, dos", "1002")])
        canvas = ('Student,ID,SIS User ID,SIS Login ID,Section,Quiz (1)\n"    Points Possible",,,,,10.00\n'
                  '"Müller, Zoë",31,s1001,zoe,A,\n"Lima, Ana",32,s1002,ana,A,\n"Student, Test",33,,x,A,\n')
        self.assertEqual(self.people(canvas.encode()), [("Müller, Zoë", "s1001"), ("Lima, Ana", "s1002")])

    def test_options_name_the_columns_in_any_case_and_a_missing_column_is_a_fault(self) -> None:
        content = "who\tgiven\tfamily\tno\nx\tZoë\tMüller\t7\n".encode()
        for name in ("list.tsv", "list.txt"):
            self.assertEqual(self.people(content, name, first_name="given", last_name="FAMILY", id="no"), [("Zoë Müller", "7")])
        self.assertEqual(self.people(content, column="who"), [("x", "")])
        for wrong in ({"id": "none"}, {"column": "none"}, {"first_name": "none"}):
            with self.assertRaisesRegex(program.Fault, "the columns of this table are: who, given, family, no, and none of them is called none"):
                self.people(content, **wrong)


class New(InRoom):
    """Labs and slips that the command makes."""

    def new(self, *more: str, students: int = 5, status: int = 0) -> str:
        """Runs `./class new` for `students` students with these options, and checks the status. Returns the output."""
        list_file = self.file("students", "".join(f"Student {number}\n" for number in range(students)))
        done = call_class("new", self.room / "lab.toml", "--students", list_file, *more)
        self.assertEqual(done.returncode, status, done.stderr)
        return done.stdout + done.stderr

    def clean(self) -> None:
        """Removes all files and folders that `new` has made, so that the next call can make them again."""
        for file in self.room.glob("lab*"):
            if file.is_dir():
                shutil.rmtree(file)
            else:
                file.unlink()

    def test_by_default_a_lab_has_the_greatest_numbers_of_events_and_sessions(self) -> None:
        """Options set other numbers."""
        self.new()
        made = labs.read(self.room / "lab.toml")
        self.assertEqual((made.events, made.sessions), (MOST["events"], MOST["sessions"]))
        self.clean()
        self.new("--events", "70", "--sessions", "6")
        made = labs.read(self.room / "lab.toml")
        self.assertEqual((made.events, made.sessions), (70, 6))

    def test_each_family_has_the_right_numbers_of_nodes_and_links(self) -> None:
        """A family without a size gets a node for each of the five students."""
        sizes = {"path": (5, 4), "cycle": (5, 5), "star": (5, 4), "complete": (5, 10), "tree": (5, 4), "grid:4x3": (12, 17),
                 "random:9:14": (9, 14)}
        for family, (nodes, links) in sizes.items():
            self.clean()
            self.assertIn(f"{nodes} nodes, {links} links, 5 students", self.new("--family", family, "--start", "random"))

    def test_links_are_read_from_a_file_and_an_error_has_the_number_and_text_of_its_line(self) -> None:
        """A line of the file is a link. It may have a comment, or a hyphen between the two nodes, and empty lines are
        left out."""
        links = self.file("links", "1 2\n2 7 # a far one\n\n7-9\n")
        self.assertIn("4 nodes, 3 links", self.new("--links", str(links)))
        self.clean()
        for line, what in (("3 3", "a node can't be linked to itself"), ("2 1", "line 1 has the same link already"),
                           ("0 1", "the number of a node has to be from 1 to 65535"),
                           ("1 65536", "the number of a node has to be from 1 to 65535"),
                           ("1 2 3", "a link is written as the numbers of two nodes, such as 1 2"),
                           ("a b", "a link is written as the numbers of two nodes, such as 1 2")):
            links = self.file("links", f"1 2\n\n{line}  # this\n")
            self.assertIn(f"class: {links}: line 3 is wrong: {line}  # this ({what})\n", self.new("--links", str(links), status=1))

    def test_a_warning_names_the_students_without_a_node_and_a_network_with_enough_nodes(self) -> None:
        """With `--strict` this is an error, and no lab is made. With `--pairs` each node has two owners, so three nodes
        are enough for five students."""
        for more, offered in ((("--family", "grid:2x2"), "--family grid:2x3"), (("--nodes", "4"), "--nodes 5"),
                              (("--family", "random:4:5"), "--family random:5:6"), (("--pairs", "--nodes", "3", "--family", "path"), None)):
            self.clean()
            told = self.new(*more)
            if offered is None:
                self.assertNotIn("WARNING", told)
            else:
                self.assertIn(f"WARNING: there are more students than nodes; these get no node: student-4. With {offered}, each student gets one\n", told)
                self.clean()
                refused = self.new(*more, "--strict", status=1)
                self.assertEqual(refused, "class: --strict: there are more students than nodes; these get no node: student-4. "
                                          f"With {offered}, each student gets one\n")
                self.assertEqual([*self.room.glob("lab*")], [])

    def test_the_lab_has_the_names_and_identifiers_as_the_list_has_them(self) -> None:
        """`./class check` knows the fields in which the lab has them."""
        students = self.file("class.csv", 'Name,ID\n"Zoë ""Z"" Müller",7\n😀 王,8\nBen,\n')
        done = call_class("new", self.room / "lab.toml", "--students", students, "--family", "path")
        self.assertEqual(done.returncode, 0, done.stderr)
        self.assertRegex(done.stdout, r'\nZoë "Z" Müller \(7\) +zoe-z-mueller +lab +1\n😀 王 \(8\) +s-8 +lab +2\nBen +ben +lab +3\n')
        people = labs.read(self.room / "lab.toml").people
        self.assertEqual(people, {"zoe-z-mueller": Person('Zoë "Z" Müller', "7"), "s-8": Person("😀 王", "8"), "ben": Person("Ben")})
        self.assertNotIn("isn't known here", call_class("check", self.room / "lab.toml").stdout)

    def test_with_pairs_each_node_has_two_owners_and_the_slips_have_the_keys_of_the_students_only(self) -> None:
        """All keys differ, and nobody else can read the lab."""
        self.new("--pairs", "--nodes", "6")
        it = tomllib.loads((self.room / "lab.toml").read_text(encoding="utf-8"))
        self.assertTrue(all(len(set(node["owners"])) == 2 for node in it["node"]))
        keys = [each["key"] for each in [it["teacher"], *it["student"]]]
        self.assertEqual(len(set(keys)), 6)
        self.assertRegex(keys[0], "^[0-9a-f]{32}$")
        self.assertTrue(all(re.fullmatch("([a-z]{3,7}-){3}[0-9]{2}", key) for key in keys[1:]))
        slips = (self.room / "lab-slips.html").read_text(encoding="utf-8")
        for each in it["student"]:
            self.assertIn(each["key"], slips)
        self.assertNotIn(it["teacher"]["key"], slips)
        self.assertEqual((self.room / "lab.toml").stat().st_mode & 0o077, 0)

    def test_if_one_of_its_files_exists_new_makes_no_file_and_overwrites_none(self) -> None:
        for name in ("lab.toml", "lab-slips.html", "lab-teacher.slip", "lab-slips.csv"):
            there = self.file(name, "mine")
            self.assertIn("isn't overwritten", self.new(status=1))
            self.assertEqual(there.read_text(encoding="utf-8"), "mine")
            self.assertEqual(len(list(self.room.glob("lab*"))), 1)
            there.unlink()

    def test_a_note_says_if_the_network_may_need_more_events(self) -> None:
        """A path of 5 nodes with 4 links makes at most 23 moves, in as many closed steps, so 46 events are enough."""
        asked = ("--family", "path", "--events")
        self.assertIn("note: 45 events may be too few. The moves and closed steps until the network is stable need at most 46", self.new(*asked, "45"))
        self.clean()
        self.assertNotIn("note", self.new(*asked, "46"))

    def test_more_events_sessions_or_students_than_a_lab_can_have_are_refused(self) -> None:
        """The error names what is too much, and what to do."""
        for option, limit in (("--events", MOST["events"]), ("--sessions", MOST["sessions"])):
            refused = self.new(option, str(limit + 1), status=2)
            self.assertEqual(refused, f"class: {option} {limit + 1}: a lab can have at most {limit}. Write a lower number\n")
        many = MOST["students"] + 1
        refused = self.new(students=many, status=1)
        self.assertEqual(refused, f"class: this lab would have {many} students, but a lab can have at most {many - 1}. "
                                  "Make several labs by --groups\n")

    def test_with_groups_the_students_are_divided_among_labs_and_each_has_a_seat(self) -> None:
        """Without this option a note recommends it."""
        many = SEATS + 9  # more than the seats of one network
        self.assertIn("--groups 2", self.new(students=many))
        self.clean()
        told = self.new("--groups", "2", students=many)
        self.assertNotIn("note", told)
        for number in (1, 2):
            it = tomllib.loads((self.room / f"lab-{number}.toml").read_text(encoding="utf-8"))
            self.assertEqual((len(it["student"]), it["sessions"], it["events"]), (many // 2, MOST["sessions"], MOST["events"]))

    def new_by_rooms(self, sizes: dict[str, int], *more: str, status: int = 0) -> str:
        """Makes labs by rooms with these options, and checks the status. `sizes` has the number of students in each
        room, and the list has them room by room. Returns the output."""
        names = [f"Student {room} {number},{room}" for room, size in sizes.items() for number in range(size)]
        # The reversed lines begin with the room, so sorting by them keeps the rooms together.
        students = self.file("rooms.csv", "Name,Room\n" + "\n".join(sorted(names, key=lambda line: line[::-1])) + "\n")
        done = call_class("new", self.room / "lab.toml", "--students", students, "--groups-by", "room", "--family", "path", *more)
        self.assertEqual(done.returncode, status, done.stderr)
        return done.stdout + done.stderr

    def sizes(self) -> list[tuple[str, int]]:
        """Returns the room and the number of students of each lab, from its slips. Checks that all slips of a lab
        have the same room."""
        found = []
        for file in sorted(self.room.glob("lab-*.toml")):
            texts = [slip.read_text(encoding="utf-8") for slip in file.with_name(f"{file.stem}-slips").iterdir()]
            rooms = {line for text in texts for line in text.splitlines() if line.startswith("room ")}
            self.assertEqual((len(rooms), len(texts)), (1, len(labs.read(file).students)))
            found.append((rooms.pop().removeprefix("room "), len(texts)))
        return found

    def test_each_room_has_the_least_number_of_networks_in_which_all_its_students_have_a_seat(self) -> None:
        """The students of a room are divided evenly among its networks."""
        many = 2 * SEATS + 1  # one more than the seats of two networks
        told = self.new_by_rooms({"A": many, "B": SEATS, "C": 2})
        self.assertNotIn("note", told)
        # The three sizes for room A differ by one at most, and their sum is `many`.
        self.assertEqual(sorted(self.sizes()), [*(("A", (many + at) // 3) for at in range(3)), ("B", SEATS), ("C", 2)])

    def test_with_groups_the_rooms_share_this_number_of_networks_by_their_sizes(self) -> None:
        """A note says if a network has too few seats. Fewer networks than rooms, and a student without a room, are
        refused."""
        self.new_by_rooms({"A": 12, "B": 5, "C": 2}, "--groups", "5")
        self.assertEqual(sorted(self.sizes()), [("A", 4), ("A", 4), ("A", 4), ("B", 5), ("C", 2)])
        self.clean()
        many = SEATS + 5
        told = self.new_by_rooms({"A": many, "B": 5}, "--groups", "2")
        self.assertEqual(sorted(self.sizes()), [("A", many), ("B", 5)])
        self.assertIn(f"note: this lab has {SEATS + 1} seats for {many} students and a teacher. "
                      "With a higher number of --groups, everybody gets a seat\n", told)
        self.clean()
        refused = self.new_by_rooms({"A": 4, "B": 4}, "--groups", "1", status=1)
        self.assertRegex(refused, r"^class: --groups 1: the column room has 2 rooms, and each needs at least one group. The rooms are: (A, B|B, A)\n$")
        refused = self.new_by_rooms({"A": 4, "B": 1}, "--groups", "6", status=1)
        self.assertEqual(refused, "class: --groups 6: each of the groups needs a student. Write a number from 1 to 5\n")
        refused = self.new_by_rooms({"A": 4, "": 1}, status=1)
        self.assertEqual(refused, "class: --groups-by room: this column is empty for these students: Student  0. Write a room for each of them\n")
        self.assertEqual([*self.room.glob("lab*")], [])

    def test_with_strict_one_lab_with_too_few_nodes_keeps_all_labs_from_being_made(self) -> None:
        """Without this option it is a warning."""
        refused = self.new_by_rooms({"A": 4, "B": 6}, "--nodes", "5", "--strict", status=1)
        self.assertRegex(refused, r"^class: --strict: there are more students than nodes; these get no node: student-b-\d. "
                                  r"With --nodes 6, each student gets one\n$")
        self.assertEqual([*self.room.glob("lab*")], [])
        warned = self.new_by_rooms({"A": 4, "B": 6}, "--nodes", "5")
        self.assertEqual(warned.count("WARNING: there are more students than nodes; these get no node: student-b-"), 1)

    def test_a_file_of_a_spreadsheet_program_is_refused(self) -> None:
        """It is recognised by its name or by its first bytes, which are those of a ZIP archive."""
        for name in ("list.xlsx", "list.ODS", "list.csv"):
            file = self.file(name, "PK\x03\x04 and more")
            done = call_class("new", self.room / "lab.toml", "--students", file)
            self.assertEqual((done.returncode, done.stderr), (1, f"class: {file}: this file is in the format of a spreadsheet program. Open it in this "
                                                                 "program, save it as CSV (UTF-8), and name the new file instead\n"))
        self.assertEqual([*self.room.glob("lab*")], [])

    def test_a_table_with_a_column_of_names_is_read_and_a_missing_column_is_an_error(self) -> None:
        self.file("class.csv", "number;Name\n1;Zoë Müller\n2;Ana\n")
        done = call_class("new", self.room / "lab.toml", "--students", self.room / "class.csv", "--family", "path")
        self.assertRegex(done.stdout, r"\nZoë Müller +zoe-mueller +lab +1\n")
        done = call_class("new", self.room / "other.toml", "--students", self.room / "class.csv", "--column", "who")
        self.assertIn("none of them is called who", done.stderr)

    def test_networks_and_numbers_that_are_impossible_are_refused_and_no_file_is_made(self) -> None:
        """The status for too many events is 2, that of a lab that is refused."""
        for more in (["--family", "ring"], ["--family", "random:5:3"], ["--family", "grid:0x4"], ["--nodes", str(MOST["nodes"] + 1)],
                     ["--events", str(MOST["events"] + 1)], ["--family", "cycle", "--nodes", "2"]):
            self.new(*more, status=2 if "--events" in more else 1)
            self.assertEqual(list(self.room.glob("lab*")), [])

    def test_labs_of_200_random_lists_are_valid_and_their_nodes_are_dealt_evenly(self) -> None:
        """The numbers of nodes of any two students differ by one at most."""
        chance = random.Random(7)
        for number in range(200):
            people = [chance.choice(SCRIPTS) + chance.choice(["", " B", " Ω"]) for _ in range(chance.randint(2, 40))]
            students = self.file("students", "\n".join(people) + "\n")
            family = chance.choice(["path", "star", "complete", "tree", "grid:3x3", "random:12:20"])
            more = ["--pairs"] * chance.randint(0, 1) + ["--start", chance.choice(["clean", "random", "hurt"])]
            with tempfile.TemporaryDirectory() as room, unittest.mock.patch("sys.stdout"):
                asked = ["new", str(Path(room, "lab.toml")), "--students", str(students), "--family", family, "--seed", str(number)]
                self.assertEqual(words_of.main([*asked, *more]), 0)
                answer = program.call("check", Path(room, "lab.toml"))
                self.assertRegex(answer.output, rf"^ok: \d+ nodes, \d+ links, {len(people)} students$")
                it = tomllib.loads(Path(room, "lab.toml").read_text(encoding="utf-8"))
                owners = [owner for node in it["node"] for owner in node.get("owners", [node.get("owner")])]
                counts = [owners.count(each["name"]) for each in it["student"]]
                self.assertLessEqual(max(counts) - min(counts), 1)


if __name__ == "__main__":
    unittest.main()
