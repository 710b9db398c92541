"""Rules that turn marks into grades: lines `name = expression` with the columns of the marks as names, written by a teacher.

An expression consists of numbers, quoted texts, the names of columns and of earlier lines, `+ - * /`, `< <= > >= ==
!=`, `and`, `or`, `not`, parentheses, `min(..)`, `max(..)`, `round(..)`, and `A if CONDITION else B`. Numbers are exact
fractions. A value without a record is unknown, and so is each result that depends on it. Here an expression is a
function that returns its value for a row of marks, and raises `Wrong` if it can't be computed.
"""
from __future__ import annotations

import re
from collections.abc import Callable, Mapping, Sequence
from dataclasses import dataclass
from fractions import Fraction
from pathlib import Path

from classroom.core import plain
from classroom.core.printable import guarded
from classroom.core.program import Fault

Known = Fraction | bool | str
Value = Known | None  # None is unknown
Row = Mapping[str, Value]
Expression = Callable[[Row], Value]
MOST_BYTES, MOST_LINES, MOST_DEPTH, MOST_DIGITS = 1 << 16, 100, 50, 12  # of a file, a file, an expression and a number
TOKEN = re.compile(r"\s*(?:(?P<number>\d+(?:\.\d+)?)|(?P<name>[A-Za-z_]\w*)|(?P<text>\"[^\"\n]*\"|'[^'\n]*')|(?P<sign><=|>=|==|!=|[-+*/()<>,=]))",
                   re.ASCII)
UNKNOWN = "-"
KEYWORDS = ("and", "or", "not", "if", "else", "true", "false")
FUNCTIONS: dict[str, Callable[[list[Fraction]], Fraction]] = {"min": min, "max": max, "round": lambda it: Fraction(round(it[0]))}


class Wrong(Exception):
    """An error in a line of a rule, as a text for people."""


@dataclass(frozen=True)
class Line:
    """A line of a rule: its name, its number in the file, and its expression."""

    name: str
    number: int
    expression: Expression


@dataclass(frozen=True)
class Rule:
    """The lines of a teacher's rule, in their order."""

    path: Path
    lines: list[Line]

    @property
    def names(self) -> list[str]:
        """Returns the names of all lines."""
        return [line.name for line in self.lines]

    def values(self, row: Row) -> list[str]:
        """Returns the value of each line of the rule for a row of marks, as a text. An unknown value is `-`. Raises
        `Fault` if a line can't be computed for this row, such as a division by 0."""
        known, found = dict(row), []
        for line in self.lines:
            try:
                known[line.name] = line.expression(known)
            except Wrong as wrong:
                raise Fault(f"{self.path}: line {line.number} can't be computed for the student {shown(row.get('student'))}: {wrong}") from None
            found.append(shown(known[line.name]))
        return found

    def cells(self, row: Row) -> list[str]:
        """Returns the value of each line of the rule for a row of marks, as the cells of a table. A value that a
        spreadsheet would take for a formula is guarded by an apostrophe, but not the `-` of an unknown value. Raises
        `Fault` if a line can't be computed for this row."""
        return [value if value == UNKNOWN else guarded(value) for value in self.values(row)]


def shown(value: Value) -> str:
    """Returns a value as a text. A number has at most three decimals."""
    if value is None:
        return UNKNOWN
    if isinstance(value, bool):
        return "yes" if value else "no"
    if isinstance(value, str):
        return value
    return f"{float(value):.3f}".rstrip("0").rstrip(".") if value.denominator != 1 else str(value.numerator)


def read(path: Path, columns: Sequence[str]) -> Rule:
    """Returns the rule in a file. The expressions in it may use the names in `columns`. Raises `Fault` if the file
    can't be read or has a wrong line."""
    try:
        lines = plain.read(path, MOST_BYTES).decode("utf-8-sig").splitlines()
    except UnicodeDecodeError:
        raise Fault(f"{path}: this file isn't a text in UTF-8. Save it as UTF-8") from None
    return parsed(path, lines, columns)


def parsed(path: Path, lines: Sequence[str], columns: Sequence[str]) -> Rule:
    """Returns the rule in these lines of the file at `path`. The expressions in them may use the names in `columns`.
    Raises `Fault` with the first wrong line, or if there are no or too many lines."""
    known, found = list(columns), list[Line]()
    for number, text in enumerate(lines, 1):
        try:
            tokens = tokens_of(text)
            if not tokens:
                continue
            line = line_of(tokens, number, known)
        except Wrong as wrong:
            raise Fault(f"{path}: line {number} is wrong: {text.strip()} ({wrong})") from None
        known.append(line.name)
        found.append(line)
    if not 1 <= len(found) <= MOST_LINES:
        raise Fault(f"{path}: this file has {len(found)} lines of a rule, but it must have 1 to {MOST_LINES}, such as pass = applied >= 3")
    return Rule(path, found)


def line_of(tokens: list[tuple[str, str]], number: int, known: Sequence[str]) -> Line:
    """Returns the line of a rule that consists of these tokens, and has this number in the rule's file. The line's
    expression may use the names in `known`. Raises `Wrong` if there is an error in it."""
    if len(tokens) < 3 or tokens[0][0] != "name" or tokens[1] != ("sign", "="):
        raise Wrong("each line has the form NAME = EXPRESSION")
    name = tokens[0][1]
    if name in known or name in KEYWORDS or name in FUNCTIONS:
        raise Wrong(f"{name} is already the name of a column or of an earlier line, or has a meaning in rules; choose another name")
    parser = Parser(tokens[2:], known)
    expression = parser.choice()
    if parser.tokens:
        raise Wrong(f"{parser.tokens[0][1]!r} isn't expected in this place")
    return Line(name, number, expression)


def tokens_of(text: str) -> list[tuple[str, str]]:
    """Returns the tokens of a line, each as its kind and its text. Ignores a comment, which begins with `#`. Raises
    `Wrong` if a character fits no token, or a number has more than MOST_DIGITS digits."""
    found, at = list[tuple[str, str]](), 0
    while text[at:].strip() and not text[at:].lstrip().startswith("#"):
        token = TOKEN.match(text, at)
        if token is None:
            raise wrong_character(text[at:].lstrip())
        kind = str(token.lastgroup)
        if kind == "number" and len(token[kind]) > MOST_DIGITS:
            raise Wrong(f"the number {token[kind]} has more than {MOST_DIGITS} digits")
        found.append((kind, token[kind]))
        at = token.end()
    return found


def wrong_character(rest: str) -> Wrong:
    """Returns the error to raise if no token begins at the first character of `rest`, the rest of a line."""
    if rest[0] in "\"'":
        return Wrong(f"the text that begins at {rest[0]} has no {rest[0]} at its end")
    if rest[0] == ".":
        return Wrong("a point has to be between two digits, as in 0.5")
    return Wrong(f"the character {rest[0]!r} can't be used in a rule")


class Parser:
    """A recursive-descent parser of expressions, one function for each level of precedence. From the lowest up, it
    reads choices, `or`, `and`, `not`, comparisons, sums, products and signs. A function that reads something removes
    its tokens and returns its expression. All functions raise `Wrong` if the next tokens don't fit."""

    def __init__(self, tokens: list[tuple[str, str]], names: Sequence[str]) -> None:
        """`tokens` are those of one line, and `names` those that its expression may use."""
        self.tokens, self.names, self.depth = tokens, names, 0

    def take(self, *texts: str) -> str:
        """Removes the next token and returns its text, if it is one of these texts. Otherwise, also for a quoted text,
        returns an empty text."""
        if self.tokens and self.tokens[0][0] != "text" and self.tokens[0][1] in texts:
            return self.tokens.pop(0)[1]
        return ""

    def expect(self, text: str) -> None:
        """Removes the next token. Raises `Wrong` if its text isn't this one."""
        if not self.take(text):
            raise Wrong(f"{text!r} is missing {f'before {self.tokens[0][1]!r}' if self.tokens else 'at the end'}")

    def choice(self) -> Expression:
        """Reads `A if CONDITION else B`, or an expression without `if`. Also raises `Wrong` if more than MOST_DEPTH
        such expressions are inside each other."""
        self.depth += 1
        if self.depth > MOST_DEPTH:
            raise Wrong(f"there are more than {MOST_DEPTH} parentheses or conditions inside each other")
        first = self.joined("or")
        if self.take("if"):
            condition = self.joined("or")
            self.expect("else")
            other = self.choice()
            first = conditional(condition, first, other)
        self.depth -= 1
        return first

    def joined(self, word: str) -> Expression:
        """Reads operands that are joined by this word, `or` or `and`, or a single operand."""
        def part() -> Expression:
            """Reads one operand."""
            return self.joined("and") if word == "or" else self.negated()

        found = part()
        while self.take(word):
            found = logical(found, part(), word == "or")
        return found

    def negated(self) -> Expression:
        """Reads `not A`, or a comparison."""
        count = 0
        while self.take("not"):
            count += 1
        inner = self.compared()
        return inner if count == 0 else negation(inner, count % 2 == 1)

    def compared(self) -> Expression:
        """Reads a comparison such as `A < B`, or a sum. Also raises `Wrong` for two comparisons in a row."""
        left = self.summed()
        sign = self.take("<", "<=", ">", ">=", "==", "!=")
        found = comparison(sign, left, self.summed()) if sign else left
        if sign and self.take("<", "<=", ">", ">=", "==", "!="):
            raise Wrong("two comparisons can't be joined as in a < b < c; write a < b and b < c")
        return found

    def summed(self) -> Expression:
        """Reads a sum."""
        found = self.product()
        while sign := self.take("+", "-"):
            found = arithmetic(sign, found, self.product())
        return found

    def product(self) -> Expression:
        """Reads a product."""
        found = self.signed()
        while sign := self.take("*", "/"):
            found = arithmetic(sign, found, self.signed())
        return found

    def signed(self) -> Expression:
        """Reads `-A`, or a single value."""
        count = 0
        while self.take("-"):
            count += 1
        value = self.single()
        return value if count % 2 == 0 else arithmetic("-", constant(Fraction(0)), value)

    def single(self) -> Expression:
        """Reads a number, a text, a name, a call, or an expression in parentheses."""
        if not self.tokens:
            raise Wrong("the expression isn't complete")
        if self.take("("):
            found = self.choice()
            self.expect(")")
            return found
        kind, text = self.tokens.pop(0)
        if kind == "number":
            return constant(Fraction(text))
        if kind == "text":
            return constant(text[1:-1])
        if text in ("true", "false"):
            return constant(text == "true")
        if kind != "name" or text in KEYWORDS:
            raise Wrong(f"{text!r} isn't expected in this place")
        return self.call_of(text) if text in FUNCTIONS else self.named(text)

    def call_of(self, name: str) -> Expression:
        """Reads the arguments of the function with that name, whose token is already removed. Returns the expression
        that calls it."""
        self.expect("(")
        given = [self.choice()]
        while self.take(","):
            given.append(self.choice())
        self.expect(")")
        if name == "round" and len(given) > 1:
            raise Wrong("write one number in the parentheses of round")
        return called(name, given)

    def named(self, name: str) -> Expression:
        """Returns the expression for the column or earlier line with that name, whose token is already removed. Raises
        `Wrong` if there is none."""
        if name not in self.names:
            raise Wrong(f"there is no column or earlier line called {name}; `class mark --columns` lists the columns")
        return lambda row: row[name]


def constant(value: Value) -> Expression:
    """Returns the expression whose value is always this one."""
    return lambda row: value


def number(value: Value) -> Fraction:
    """Returns a value as a number. Raises `Wrong` if it isn't one."""
    if isinstance(value, (bool, str)) or value is None:
        raise Wrong(f"the value {shown(value)!r} isn't a number")
    return value


def truth(value: Value) -> bool | None:
    """Returns a value as true, false or, if it is unknown, None. Raises `Wrong` for a number or a text."""
    if value is not None and not isinstance(value, bool):
        raise Wrong(f"the value {shown(value)!r} is neither yes nor no; write a comparison, such as applied >= 1")
    return value


def conditional(condition: Expression, first: Expression, other: Expression) -> Expression:
    """Returns the expression `first if condition else other`. Its evaluation raises `Wrong` if the value of the
    condition is a number or a text."""
    def value(row: Row) -> Value:
        """Returns the value of the conditional expression for a row of marks, or None if its condition is unknown.
        Raises `Wrong` if the condition is a number or a text."""
        holds = truth(condition(row))
        return None if holds is None else first(row) if holds else other(row)

    return value


def logical(left: Expression, right: Expression, is_or: bool) -> Expression:
    """Returns the expression `left or right` if `is_or` is set, and otherwise `left and right`. The value of this
    expression is known if one side decides it. Its evaluation raises `Wrong` if the value of a side is a number or a
    text."""
    def value(row: Row) -> Value:
        """Returns the value of the expression with `or` or `and` for a row of marks, or None if it is unknown. Raises
        `Wrong` if a side is a number or a text."""
        sides = truth(left(row)), truth(right(row))
        return is_or if is_or in sides else None if None in sides else not is_or  # One true side decides `or`, and one false side `and`.

    return value


def negation(inner: Expression, is_negated: bool) -> Expression:
    """Returns the expression `not inner`, or if `is_negated` isn't set, an expression with the value of `inner`. Its
    evaluation raises `Wrong` if the value of `inner` is a number or a text."""
    def value(row: Row) -> Value:
        """Returns the value of the expression or of its negation for a row of marks, or None if it is unknown. Raises
        `Wrong` if it is a number or a text."""
        holds = truth(inner(row))
        return None if holds is None else holds != is_negated

    return value


def of_two(left: Expression, right: Expression, made: Callable[[Known, Known], Known]) -> Expression:
    """Returns the expression that applies `made` to the values of two expressions. The result is unknown if one of
    these values is."""
    def value(row: Row) -> Value:
        """Returns the result of `made` for a row of marks, or None if one of the two values is unknown."""
        one, other = left(row), right(row)
        return None if one is None or other is None else made(one, other)

    return value


def comparison(sign: str, left: Expression, right: Expression) -> Expression:
    """Returns the expression that compares two values by this sign. `==` and `!=` compare two values of one kind, and
    the other signs two numbers. For other values, its evaluation raises `Wrong`."""
    def holds(one: Known, other: Known) -> bool:
        """Returns whether the comparison of two values by `sign` is true. Raises `Wrong` for values of different kinds,
        and for an order of values that aren't numbers."""
        if sign in ("==", "!="):
            if isinstance(one, bool) != isinstance(other, bool) or isinstance(one, str) != isinstance(other, str):
                raise Wrong(f"the values {shown(one)!r} and {shown(other)!r} are of different kinds, and can't be compared")
            return (one == other) == (sign == "==")
        a, b = number(one), number(other)
        return {"<": a < b, "<=": a <= b, ">": a > b, ">=": a >= b}[sign]

    return of_two(left, right, holds)


def arithmetic(sign: str, left: Expression, right: Expression) -> Expression:
    """Returns the expression that adds, subtracts, multiplies or divides two values, as the sign says. Its evaluation
    raises `Wrong` if a value isn't a number, or for a division by 0."""
    def result(one: Known, other: Known) -> Fraction:
        """Returns the sum, difference, product or quotient of two values. Raises `Wrong` if one isn't a number, or for
        a division by 0."""
        a, b = number(one), number(other)
        if sign == "/" and b == 0:
            raise Wrong("it divides by 0")
        return a + b if sign == "+" else a - b if sign == "-" else a * b if sign == "*" else a / b

    return of_two(left, right, result)


def called(name: str, given: Sequence[Expression]) -> Expression:
    """Returns the expression that calls the function `name` of FUNCTIONS on these arguments. The value of the call is
    unknown if that of an argument is. Otherwise its evaluation raises `Wrong` if an argument isn't a number."""
    def value(row: Row) -> Value:
        """Returns the value of the call for a row of marks, or None if an argument is unknown. Raises `Wrong` if an
        argument isn't a number."""
        values = [each(row) for each in given]
        return None if None in values else FUNCTIONS[name]([number(each) for each in values])

    return value
