"""Counts what makes a text hard to read: phrases that read as if translated, and sentences of more than 30 words.

    python3 -B -m tests.documents.style             prints what is wrong; its status is 1 if something is
    python3 -B -m tests.documents.style PAGE..      prints what these pages have, except at the places of `allowed.txt`
    python3 -B -m tests.documents.style --counts    prints `counts.txt` as it is now

A page has neither, except at the places of `allowed.txt`, where the word is right: a line there is a page's path, a
space, and a part of the sentence. `counts.txt` has how many are left: in the pages that aren't done yet, and phrases in
the comments and messages of the sources of a folder. These numbers only fall.
"""
from __future__ import annotations

import io
import re
import sys
import tokenize
from collections import Counter
from collections.abc import Iterator
from pathlib import Path

TOP = Path(__file__).resolve().parents[2]
HERE = Path(__file__).parent
MOST = 30  # the most words of a sentence
# Each phrase, and what to write instead.
PHRASES = {
    r"(?<![A-Za-z`] )\bWhere\b(?= \S)(?![^.?!]*\?)": "If, When",
    r"(?<!says)(?<!shows)(?<!sees)(?<!knows),? where (?:no|none|nobody|nothing|not|it|they|one|some|each|"
    r"two|there|that|this|a|an|the|you|he|she|n)\b(?![^.?!]*\?)": "if, when",
    r"\b(?:tells?|told|telling)\b(?!.*\bapart\b)": "prints, returns, says, names",
    r"\bbehind\b": "after",
    r"\bin vain\b": "without success, denied",
    r"\b(?:want|lack) of memory\b|\bmemory lacks\b": "out of memory",
    r"\b(?:hands?|handed) (?:up|over)\b|\blets? go\b": "returns, passes",
    r"(?:^|(?<=[.:;] ))Who\b(?![^.?!]*\?)": "Whoever, A student who",
}
FENCE = re.compile(r"^```.*?^```$", re.MULTILINE | re.DOTALL)


def blocks(text: str) -> Iterator[str]:
    """Yields the parts of a page's text that are read by themselves: paragraphs, items, and the parts of a table's cells
    between semicolons. Code blocks and headings are left out."""
    text = FENCE.sub("\n\n", text)
    text = re.sub(r"^    .*$", "", text, flags=re.MULTILINE)
    for part in re.split(r"\n\s*\n|\n(?=\s*(?:[-*]|\d+\.) )|\n(?=[|#])", text):
        line = "" if part.startswith("#") else re.sub(r"^\s*(?:[-*]|\d+\.)\s+", "", part.strip())
        yield from re.split(r"\s*[|;]\s*", line.strip("|")) if line.startswith("|") else (line,)


def sentences(text: str) -> Iterator[str]:
    """Yields the sentences of a page's text. Code in backquotes counts as one word."""
    for block in blocks(text):
        plain = re.sub(r"!?\[([^\]]*)\]\([^)]*\)", r"\1", re.sub(r"`[^`]*`", "`c`", block.replace("\n", " ")))
        yield from (each for each in re.split(r"(?<=[.!?:])[\"')*]*\s+(?=[\"'(*]*[A-Z0-9`])", plain) if each.strip())


def words(sentence: str) -> int:
    """Returns the number of words in a sentence, those parts that have a letter or a digit."""
    return sum(bool(re.search(r"\w", word)) for word in sentence.split())


def found_in(text: str) -> Iterator[tuple[str, str]]:
    """Yields each sentence of a page's text that is too long or has a phrase, and an error text about it."""
    for sentence in sentences(text):
        if words(sentence) > MOST:
            yield sentence, f"{words(sentence)} words"
        for phrase, instead in PHRASES.items():
            for found in re.finditer(phrase, sentence):
                yield sentence, f"'{found[0].strip(', ')}': {instead}"


def allowed() -> list[tuple[str, str]]:
    """Returns the places at which a phrase is right: for each the page and a part of the sentence."""
    lines = (HERE / "allowed.txt").read_text(encoding="utf-8").splitlines()
    return [(page, part) for page, _, part in (line.partition(" ") for line in lines if line and not line.startswith("#"))]


def comments(path: str) -> Iterator[str]:
    """Yields the comments and docstrings in the file of a source, and in Python also the texts with a space, as
    messages have."""
    text = (TOP / path).read_text(encoding="utf-8")
    if path.endswith(".py"):
        for it in tokenize.generate_tokens(io.StringIO(text).readline):
            if it.type == tokenize.COMMENT or it.type == tokenize.STRING and " " in it.string:
                yield it.string
    else:
        yield from re.findall(r"(?:///?!?|--|^#) (.*)", text, re.MULTILINE)


def phrases_by_folder(files: list[str]) -> Counter[str]:
    """Returns how often the comments and messages of each crate, and of each folder of Python, contain one of
    `PHRASES`."""
    counts: Counter[str] = Counter()
    for path in files:
        folder = re.match(r"crates/\w+|(?:classroom|examples|model|bench|tools|tests)(?=/)", path)
        if folder and re.search(r"\.(rt|antt|py)$", path) and not path.startswith("tests/documents/"):
            counts[folder[0]] += sum(len(re.findall(phrase, line)) for line in comments(path) for phrase in PHRASES)
    return counts


def limits() -> dict[str, int]:
    """Returns how many faults each page and folder in `counts.txt` may have. Others may have none."""
    lines = (HERE / "counts.txt").read_text(encoding="utf-8").splitlines()
    return {where: int(number) for number, where in (line.split() for line in lines)}


def is_page(page: str) -> bool:
    """Returns whether a file is a page, of which the sentences count."""
    return page.endswith(".md")


def wrong_in(page: str) -> list[str]:
    """Returns the error texts about a page, without those at places where the phrase is allowed."""
    parts = [part for where, part in allowed() if where == page]
    found = found_in((TOP / page).read_text(encoding="utf-8"))
    return [f"{what}: {sentence}" for sentence, what in found if not any(part in sentence for part in parts)]


def idle(pages: list[str]) -> list[str]:
    """Returns the lines of `allowed.txt` that allow nothing, because no sentence of these pages has a fault there."""
    found = {page: [sentence for sentence, _ in found_in((TOP / page).read_text(encoding="utf-8"))] for page in pages}
    return [f"{page} {part}" for page, part in allowed() if not any(part in sentence for sentence in found.get(page, []))]


def counts(files: list[str]) -> dict[str, int]:
    """Returns the number of faults in each page and each folder that has some."""
    pages = {page: len(wrong_in(page)) for page in files if is_page(page)}
    return {where: count for where, count in sorted({**pages, **phrases_by_folder(files)}.items()) if count}


def faults(files: list[str]) -> list[str]:
    """Returns the error texts about these pages and sources: too many faults, and lines that allow nothing."""
    most = limits()
    wrong = [f"nothing to allow: tests/documents/allowed.txt: {place}" for place in idle([page for page in files if is_page(page)])]
    for where, count in counts(files).items():
        if count > most.get(where, 0):
            wrong.append(f"harder to read: {where} has {count}, and {most.get(where, 0)} in tests/documents/counts.txt")
            wrong += [f"hard to read: {where}: {each}" for each in (wrong_in(where) if is_page(where) else [])]
    return wrong


def main() -> None:
    """Prints the faults of all files, those of the pages in the arguments, or the counts. Exits with status 1 if there
    is a fault."""
    from tests.documents.__main__ import not_ignored

    if sys.argv[1:] == ["--counts"]:
        print("\n".join(f"{count} {where}" for where, count in counts(not_ignored()).items()))
        return
    lines = [f"{page}: {each}" for page in sys.argv[1:] for each in wrong_in(page)] if sys.argv[1:] else faults(not_ignored())
    print("\n".join(lines))
    sys.exit(1 if lines else 0)


if __name__ == "__main__":
    main()
