"""The page with slips for printing: four on a sheet, with lines to cut along. A *slip* has the data that a student
needs to connect, and the *way* into a network is what all its slips have in common. A *door* is a TLS port for students
on other machines. Without one, they use ssh."""
from __future__ import annotations

import shutil
from collections.abc import Iterator
from html import escape
from urllib.parse import quote

from classroom.core.lab import Lab
from classroom.core.lists import Person
from classroom.core.processes import run
from classroom.core.program import Fault
from classroom.core.statuses import FAILED
from classroom.setup.slips import Way

STYLE = """
@page { size: A4; margin: 8mm; }
* { box-sizing: border-box; }
body { margin: 0; font: 10.5pt/1.35 sans-serif; color: #000; background: #fff; }
.sheet { display: grid; grid-template: repeat(2, 1fr) / repeat(2, 1fr); height: 279mm; break-after: page; }
.slip { border: 0.4mm dashed #767676; margin: -0.2mm; padding: 6mm; overflow: hidden; position: relative; }
h2 { font-size: 22pt; line-height: 1.1; margin: 0; overflow-wrap: anywhere; }
h3 { font-size: 14pt; margin: 2mm 0; overflow-wrap: anywhere; }
dl { display: grid; grid-template-columns: auto 1fr; gap: 0.5mm 3mm; margin: 0 0 2mm; }
dt { color: #505050; }
dd { margin: 0; overflow-wrap: anywhere; }
code { font: 10.5pt/1.35 monospace; overflow-wrap: anywhere; }
.key { font-size: 12pt; font-weight: bold; white-space: nowrap; }
.small, .small code { font-size: 8pt; }
p { margin: 0 0 1.5mm; }
.square { float: right; width: 30mm; height: 30mm; margin: 0 0 2mm 3mm; }
@media screen { .sheet { max-width: 194mm; margin: 8mm auto; } }
"""
EACH = 4  # the number of slips on a page
NO_SQUARE = "The slips have no QR codes, because qrencode isn't installed (Debian's package qrencode)."


def address(way: Way, name: str, key: str) -> str:
    """Returns the address of the page on which the student `name` plays, by the way into the network. Name and key are
    after `#`, so that browsers don't send them."""
    given = f"#name={quote(name)}&key={quote(key, safe='')}"
    return f"https://{way.door}/{way.network}/{given}" if way.door else f"http://127.0.0.1:{way.page}/{given}"


def has_squares(way: Way) -> bool:
    """Returns whether slips for this way into a network can have QR codes. The way needs a door, since no other address
    works on another machine, and the program qrencode has to be installed."""
    return bool(way.door) and shutil.which("qrencode") is not None


def square(content: str) -> str:
    """Returns a QR code with this content as SVG. Passes the content to qrencode by standard input, because other users
    could read arguments. Raises `Fault` if qrencode fails."""
    done = run(["qrencode", "-t", "ASCII", "-m", "0", "-l", "M"], given=content.encode())
    if done.returncode != 0:
        raise Fault(f"qrencode couldn't make a QR code. It printed: {done.stderr.decode(errors='replace').strip() or 'nothing'}", FAILED)
    # qrencode prints each square of the code as two equal characters.
    rows = [line[::2] for line in done.stdout.decode("ascii").splitlines() if line]
    dark = "".join(f"M{x} {y}h1v1h-1z" for y, row in enumerate(rows) for x, cell in enumerate(row) if cell == "#")
    size = len(rows) + 4  # with a margin of two squares on each side
    return (f'<svg class="square" viewBox="-2 -2 {size} {size}" role="img" aria-label="the page\'s address as a QR code">'
            f'<path d="{dark}"/></svg>')


def forwards(way: Way) -> str:
    """Returns the ssh command by which a student forwards two ports of the way into a network: the server's, and that
    of the page to play."""
    return f"ssh -N -L {way.port}:127.0.0.1:{way.port} -L {way.page}:127.0.0.1:{way.page} {way.ssh}"


def in_parts(digits: str) -> str:
    """Returns a fingerprint, which is given as hexadecimal digits, in the form that browsers show."""
    return ":".join(digits[at:at + 2] for at in range(0, len(digits), 2)).upper()


def rows(made: Lab, name: str) -> Iterator[tuple[str, str]]:
    """Yields the rows of the slip of the student `name` of the lab `made`: for each value its label, and the value as
    HTML."""
    yield "name", f"<code>{escape(name)}</code>"
    yield "key", f'<code class="key">{escape(made.students[name])}</code>'
    nodes = made.nodes_of(name)
    yield ("node" if len(nodes) == 1 else "nodes"), escape(", ".join(map(str, nodes)) or "none")
    shared = [f"{node} (with {other})" for node in nodes for other in made.owners(node) if other != name]
    if shared:
        yield "shared", escape(", ".join(shared))


def slip(made: Lab, shown: Lab, name: str, way: Way) -> str:
    """Returns the slip of the student `name` of the lab `made` as HTML. `shown` is the same lab without the house, a
    program that may play for absent students. `way` is the way into the lab's network. Raises `Fault` if
    qrencode fails."""
    person, link = made.people.get(name, Person(name)), address(way, name, made.students[name])
    room = f" · {escape(way.room)}" if way.room else ""
    listed = "".join(f"<dt>{head}</dt><dd>{value}</dd>" for head, value in rows(shown, name))
    house = "<p>If a node of yours waits too long for you, a program, the house, may play it.</p>" if made.house_nodes() else ""
    anchor = f'<a href="{escape(link)}">{escape(link.partition("#")[0])}</a>'
    if way.door:
        how = (f"<p>To play by hand: {anchor}. Your browser will warn you about the certificate; compare its fingerprint with the one below.</p>"
               f"<p>To start a bot: <code>python3 bot.py {escape(name)}.slip</code></p>"
               f"<p>For a bot in another language, first: <code>python3 client.py --tunnel {escape(name)}.slip</code>. Then the bot connects to "
               f"port {way.port} of your own machine.</p>"
               f'<p class="small">The certificate\'s SHA-256 fingerprint: <code>{in_parts(way.fingerprint)}</code></p>')
    else:
        account = " (NAME is your account on the server)" * way.ssh.startswith("NAME@")
        how = (f"<p>From another machine, first: <code>{escape(forwards(way))}</code>{account}</p>"
               f"<p>To play by hand: {anchor}</p>"
               f"<p>To start a bot: <code>python3 bot.py {escape(name)}.slip</code>, which connects to port {way.port}.</p>")
    code = square(link) if has_squares(way) else ""
    return (f'<section class="slip"><h2>{escape(way.network)}{room}</h2><h3>{escape(person.written)}</h3><dl>{listed}</dl>'
            f"{code}{house}{how}</section>")


def page(made: Lab, way: Way) -> str:
    """Returns the page with the slips of all students of the lab `made` as HTML. `way` is the way into the lab's
    network. Raises `Fault` if qrencode fails."""
    shown = made.without_house()
    slips = [slip(made, shown, name, way) for name in shown.students]
    sheets = ["".join(slips[at:at + EACH]) for at in range(0, len(slips), EACH)]
    return (f'<!DOCTYPE html>\n<html lang="en">\n<head>\n<meta charset="utf-8">\n<title>Slips of {escape(way.network)}</title>\n'
            f"<style>{STYLE}</style>\n</head>\n<body>\n"
            + "\n".join(f'<div class="sheet">{sheet}</div>' for sheet in sheets) + "\n</body>\n</html>\n")
