#!/usr/bin/env python3
"""Prints the lab of a network on which runs take longest, with its worst start: families.py crowd|comb|halves N > lab.toml
One student owns all nodes. docs/SELF-STABILISATION.md says how long runs on these networks are."""
import sys


def crowd(n: int) -> tuple[list[tuple[int, int]], list[int]]:
    """Returns the links of the crowd with n nodes, on which a run may take the most moves, and the pointer of each
    node."""
    links = [(i, j) for i in range(1, n + 1) for j in range(i + 1, n + 1) if i + j > n]
    return links, [n + 1 - i if 2 * i <= n else i + 1 if i < n else 2 for i in range(1, n + 1)]


def comb(n: int) -> tuple[list[tuple[int, int]], list[int]]:
    """Returns the links of the comb with n nodes, a tree on which a run may take nearly the most moves, and the pointer
    of each node. The links of the comb are its pointers, and the last node points at none (0)."""
    pointers = [n + 1 - i if 2 * i <= n else i + 1 if i < n else 0 for i in range(1, n + 1)]
    links = {(min(i, p), max(i, p)) for i, p in enumerate(pointers, 1) if p}
    return sorted(links), pointers


def halves(n: int) -> tuple[list[tuple[int, int]], list[int]]:
    """Returns the links of the halves with n nodes, on which a run may take the most rounds, and the pointer of each
    node. No node points at another."""
    lower, upper = range(1, (n + 1) // 2 + 1), range((n + 1) // 2 + 1, n + 1)
    return [(i, j) for i in lower for j in upper if i + j > n], [0] * n


def lab(links: list[tuple[int, int]], pointers: list[int]) -> str:
    """Returns the text of a lab with these links and pointers. The pointer 0 points at no node. The register m of each
    node is true, although no node is in a pair."""
    text = f'events = 100000\nsessions = 2\nlinks = {[list(link) for link in links]}\nteacher = {{ name = "tess", key = "slate-40" }}\n'
    text += 'student = [{ name = "ana", key = "rook-17" }]\n'
    for node, pointer in enumerate(pointers, 1):
        text += f'\n[[node]]\nid = {node}\nowner = "ana"\nm = true\n' + (f"p = {pointer}\n" if pointer else "")
    return text


FAMILIES = {"crowd": (crowd, 4), "comb": (comb, 4), "halves": (halves, 2)}


def main(words: list[str]) -> None:
    """Prints the lab that the arguments name, a family and a number of nodes. Exits with the usage if they name none,
    and with a line if there is no such network of this size."""
    if len(words) != 2 or words[0] not in FAMILIES or not words[1].isdecimal():
        sys.exit(__doc__)
    family, least = FAMILIES[words[0]]
    if not least <= int(words[1]) <= 256:
        sys.exit(f"families.py: the number of nodes of {words[0]} has to be from {least} to 256")
    print(lab(*family(int(words[1]))), end="")


main(sys.argv[1:])
