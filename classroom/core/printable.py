"""Makes texts from elsewhere safe to print: some characters change a terminal's state, and spreadsheets evaluate some
cells as formulas."""
from __future__ import annotations

FORMULA = ("=", "+", "-", "@", "\t", "\r")  # the first characters of a cell that is a formula


def printable(text: str) -> str:
    """Returns the text with each character that isn't printable escaped as in Python. Newlines aren't escaped."""
    return "".join(char if char.isprintable() or char == "\n" else ascii(char)[1:-1] for char in text)


def guarded(cell: str) -> str:
    """Returns the cell of a table, with an apostrophe before its text if a spreadsheet would take the text for a
    formula."""
    return f"'{cell}" if cell.startswith(FORMULA) else cell
