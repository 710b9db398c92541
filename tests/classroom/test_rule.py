"""Rules that turn marks into grades: their results, their errors, and their columns in all forms of the marks. A *rule*
is a file with lines such as `pass = applied >= 3`. Each line adds a column to the marks, and its expression uses the
columns before it."""
from __future__ import annotations

import csv
import io
import json
import unittest
from fractions import Fraction
from pathlib import Path

from classroom.core.program import Fault
from classroom.marks import columns
from classroom.marks.rule import MOST_DEPTH, MOST_LINES, Value, parsed
from tests.classroom.help import EXAMPLES, InRoom, call_class
from tests.classroom.runs import journal_of

# The row of marks for which the tests compute values. `clause4` isn't known, as in a run without a record.
ROW: dict[str, Value] = {"applied": Fraction(7), "nodes": Fraction(2), "student": "ana", "clause4": None, "whole": True}
TAKEN = "is already the name of a column or of an earlier line, or has a meaning in rules; choose another name"


def value(expression: str) -> str:
    """Returns the value of an expression for ROW, as a text. Raises `Fault` if it can't be parsed or computed."""
    return parsed(Path("rule"), [f"x = {expression}"], list(ROW)).values(ROW)[0]


class Expressions(unittest.TestCase):
    """The values of expressions."""

    def test_each_operator_and_function_has_its_value(self) -> None:
        for expression, wanted in (
            ("1 + 2 * 3", "7"), ("(1 + 2) * 3", "9"), ("7 - 2 - 1", "4"), ("8 / 4 / 2", "1"), ("1 / 3", "0.333"), ("-2 * -3", "6"), ("- - 2", "2"),
            ("0.1 + 0.2 == 0.3", "yes"), ("applied / nodes", "3.5"), ("applied >= 7", "yes"), ("applied > 7", "no"), ("applied < 7.5", "yes"),
            ("applied <= 6", "no"), ("applied != 7", "no"), ("student == 'ana'", "yes"), ('student != "ana"', "no"), ("true", "yes"),
            ("not false", "yes"), ("not not false", "no"), ("not applied > 7", "yes"), ("1 < 2 and 2 < 3 or false", "yes"),
            ("true or true and false", "yes"), ("(true or true) and false", "no"), ("'A' if applied >= 7 else 'B'", "A"),
            ("'A' if applied > 9 else 'B' if applied > 6 else 'C'", "B"), ("min(applied, 3, 5)", "3"), ("max(1, applied)", "7"),
            ("round(7 / 2)", "4"), ("round(-applied / 3)", "-2"), ("min(10, 2 * applied)", "10"), ("1 # a comment", "1"), ("whole == true", "yes"),
        ):
            self.assertEqual(value(expression), wanted, expression)

    def test_an_expression_with_an_unknown_value_is_a_dash_unless_the_rest_decides(self) -> None:
        """In ROW the value of `clause4` is unknown."""
        for expression, wanted in (
            ("clause4", "-"), ("clause4 + 1", "-"), ("clause4 <= 5", "-"), ("clause4 <= 5 and false", "no"), ("false and clause4 <= 5", "no"),
            ("clause4 <= 5 and true", "-"), ("clause4 <= 5 or true", "yes"), ("true or clause4 <= 5", "yes"), ("false or clause4 <= 5", "-"),
            ("not clause4 > 5", "-"), ("'A' if clause4 <= 5 else 'B'", "-"), ("min(clause4, 1)", "-"), ("0 * clause4", "-"),
            ("'A' if applied > 9 and clause4 <= 5 else 'B'", "B"),
        ):
            self.assertEqual(value(expression), wanted, expression)

    def test_later_lines_use_earlier_ones(self) -> None:
        rule = parsed(Path("rule"), ["# a rule", "", "pass = applied >= 3", "points = 5 if pass else 0", "more = points * nodes"], list(ROW))
        self.assertEqual((rule.names, rule.values(ROW)), (["pass", "points", "more"], ["yes", "5", "10"]))

    def test_each_error_of_a_line_has_the_line_s_number_its_text_and_a_reason(self) -> None:
        """A file with no line of a rule, or with too many, is refused too."""
        deep = "(" * (MOST_DEPTH + 1) + "1" + ")" * (MOST_DEPTH + 1)
        for text, error in (
            ("pass", "each line has the form NAME = EXPRESSION"), ("= 1", "each line has the form NAME = EXPRESSION"),
            ("pass =", "each line has the form NAME = EXPRESSION"),
            ("1 = 2", "each line has the form NAME = EXPRESSION"), ("pass == 1", "each line has the form NAME = EXPRESSION"),
            ("x = 1 +", "the expression isn't complete"),
            ("x = (1", "')' is missing at the end"), ("x = (1 2", "')' is missing before '2'"), ("x = 1 2", "'2' isn't expected in this place"),
            ("x = and", "'and' isn't expected in this place"), ("x = )", "')' isn't expected in this place"), ("x = 1 if true", "'else' is missing at the end"),
            ("x = aplied", "there is no column or earlier line called aplied; `class mark --columns` lists the columns"),
            ("applied = 1", f"applied {TAKEN}"),
            ("min = 1", f"min {TAKEN}"), ("x = 1 < 2 < 3", "two comparisons can't be joined as in a < b < c; write a < b and b < c"),
            ("x = __import__('os')", "there is no column or earlier line called __import__; `class mark --columns` lists the columns"),
            ("x = applied.real", "a point has to be between two digits, as in 0.5"),
            ("x = 1 ** 2", "'*' isn't expected in this place"), ("x = [1]", "the character '[' can't be used in a rule"),
            ("x = 'a", "the text that begins at ' has no ' at its end"), ('x = "a', 'the text that begins at " has no " at its end'),
            ("x = .5", "a point has to be between two digits, as in 0.5"), ("x = 5 % 2", "the character '%' can't be used in a rule"),
            ("x = 1234567890123", "the number 1234567890123 has more than 12 digits"), ("x = round(1, 2)", "write one number in the parentheses of round"),
            ("x = min()", "')' isn't expected in this place"), (f"x = {deep}", f"there are more than {MOST_DEPTH} parentheses or conditions inside each other"),
            ("x = e\u0301", f"the character {chr(0x301)!r} can't be used in a rule"),
        ):
            with self.assertRaises(Fault) as fault:
                parsed(Path("rule"), ["", text], list(ROW))
            self.assertEqual(str(fault.exception), f"rule: line 2 is wrong: {text} ({error})")
        several: list[list[str]] = [[], ["# none"], [f"x{number} = 1" for number in range(MOST_LINES + 1)]]
        for lines in several:
            count = len(lines) if len(lines) > 1 else 0  # The only line of the second file is a comment.
            with self.assertRaisesRegex(Fault, f"^rule: this file has {count} lines of a rule, but it must have 1 to {MOST_LINES}, "):
                parsed(Path("rule"), lines, [])

    def test_each_error_of_a_computation_has_the_line_s_number_the_student_and_a_reason(self) -> None:
        for expression, error in (
            ("applied / 0", "it divides by 0"), ("1 / (nodes - 2)", "it divides by 0"), ("student + 1", "the value 'ana' isn't a number"),
            ("true + 1", "the value 'yes' isn't a number"),
            ("applied and true", "the value '7' is neither yes nor no; write a comparison, such as applied >= 1"),
            ("1 if applied else 2", "the value '7' is neither yes nor no; write a comparison, such as applied >= 1"),
            ("student == 1", "the values 'ana' and '1' are of different kinds, and can't be compared"),
            ("true == 1", "the values 'yes' and '1' are of different kinds, and can't be compared"), ("student < 'b'", "the value 'ana' isn't a number"),
            ("not 1", "the value '1' is neither yes nor no; write a comparison, such as applied >= 1"),
        ):
            with self.assertRaises(Fault) as fault:
                value(expression)
            self.assertEqual(str(fault.exception), f"rule: line 1 can't be computed for the student ana: {error}", expression)


class InMarks(InRoom):
    """The columns of rules in the forms of the marks."""

    def setUp(self) -> None:
        """Writes the journal of a run of the cycle, and a rule of four lines. The run has no record, so `guard_denials`
        isn't known."""
        super().setUp()
        self.lab = EXAMPLES / "cycle.toml"
        self.journal = journal_of(self.lab, EXAMPLES / "cycle-run.script", self.room / "cycle.journal")
        self.rule = self.file("rule.txt", "pass = applied_per_node >= 2 and guard_denials <= 5\nenough = applied_per_node >= 2\n"
                                          "points = min(3, applied) * nodes\nwhere = network\n")

    def test_each_form_of_the_marks_has_the_columns_of_the_rule(self) -> None:
        """Gus has fewer than two applied moves per node, so he doesn't pass, whatever `guard_denials` is. For the
        others it isn't known whether they pass."""
        rows = list(csv.DictReader(io.StringIO(call_class("mark", "--csv", "--rule", self.rule, self.lab, self.journal).stdout)))
        wanted = {"gus": ("2", "no", "no", "6"), "hana": ("2", "-", "yes", "6"), "ines": ("2", "-", "yes", "6"), "jonas": ("1", "-", "yes", "3")}
        self.assertEqual({row["student"]: (row["nodes"], row["pass"], row["enough"], row["points"]) for row in rows}, wanted)
        self.assertEqual({row["network"] for row in rows} | {row["where"] for row in rows}, {"cycle"})
        run, = json.loads(call_class("mark", "--json", "--rule", self.rule, self.lab, self.journal).stdout)["runs"]
        self.assertEqual(run["students"]["hana"]["rule"], {"pass": "-", "enough": "yes", "points": "6", "where": "cycle"})
        self.assertEqual((run["students"]["hana"]["guard_denials"], run["students"]["hana"]["nodes"]), (None, 2))
        said = call_class("mark", "--rule", self.rule, self.lab, self.journal).stdout
        self.assertRegex(said, r"(?m)^ +student +granted .* +guard denials +malformed +nodes +pass +enough +points +where$")

    def test_a_rule_for_totals_uses_the_sums_over_all_runs(self) -> None:
        """The same run is counted twice. Totals have no column `first`, so a rule can't use it there. A roster adds a
        row for each of its students, with the same columns."""
        done = call_class("mark", "--total", "--rule", self.rule, self.lab, self.journal, self.journal)
        self.assertEqual(done.returncode, 0, done.stderr)
        rows = {row["student"]: row for row in csv.DictReader(io.StringIO(done.stdout))}
        self.assertEqual((rows["gus"]["applied"], rows["gus"]["nodes"], rows["gus"]["enough"], rows["gus"]["points"]), ("6", "4", "no", "12"))
        first = self.file("first.txt", "early = first <= 3\n")
        done = call_class("mark", "--total", "--rule", first, self.lab, self.journal)
        self.assertIn("there is no column or earlier line called first; `class mark --columns` lists the columns", done.stderr)
        self.assertEqual(call_class("mark", "--csv", "--rule", first, self.lab, self.journal).returncode, 0)
        roster = self.file("names.csv", "name\ngus\nhana\nines\njonas\nnobody else\n")
        listed = list(csv.reader(io.StringIO(call_class("mark", "--roster", roster, "--rule", self.rule, self.lab, self.journal).stdout)))
        self.assertEqual(listed[0][-5:], ["network", "pass", "enough", "points", "where"])
        self.assertEqual(len({len(row) for row in listed}), 1)

    def test_the_option_columns_explains_each_column(self) -> None:
        said = call_class("mark", "--columns").stdout
        names = [line.split("  ")[0] for line in said.splitlines()]
        heads = csv.reader(io.StringIO(call_class("mark", "--csv", self.lab, self.journal).stdout)).__next__()
        totals = csv.reader(io.StringIO(call_class("mark", "--total", self.lab, self.journal).stdout)).__next__()
        self.assertLessEqual({*heads, *totals}, {*names})
        self.assertLessEqual({*columns.for_rules(True), *columns.for_rules(False)}, {*names})

    def test_mark_without_arguments_says_what_it_needs(self) -> None:
        self.assertEqual(call_class("mark").stderr, "class: mark: name the folders of runs or of classes, or a lab and its journals\n")


if __name__ == "__main__":
    unittest.main()
