"""Lines that other people sent, as they are shown: without keys, and without characters that control a terminal."""
from __future__ import annotations

import json
import unittest

from classroom.marks.hiding import Hider

HIDER = Hider(["heron-31", "swift-86", "chalk"], ["gus", "hana", "tess"])
# Lines that were sent, each with the text that is shown in its place. In a JSON object, each key is hidden. Any other
# line is shown up to the first place at which a key may be.
CASES = (
    (b'{"do":"hello","name":"gus","key":"heron-31"}', '{"do":"hello","name":"gus","key":"***"}'),
    (b'{"do":"hello","key":"heron-32","name":"gus"}', '{"do":"hello","key":"***","name":"gus"}'),
    (b'{ "key" : "a", "key":"b\\"c","name":"gus"}', '{ "key" : "***", "key":"***","name":"gus"}'),
    (b'{"do":"hello","KEY":"heron-32","k\\u0065y":"x"}', '{"do":"hello","KEY":"***","k\\u0065y":"***"}'),
    (b'{"do":"hello","name":"heron-31","key":"gus"}', '{"do":"hello","name":"***","key":"***"}'),
    (b'{"do":"hello","name":"h\\u0065ron-31","key":"gus"}', '{"do":"hello","name":"***","key":"***"}'),
    (b'{"do":"see","node":1,"note":{"my":["swift-86!"]},"heron-31":2}', '{"do":"see","node":1,"note":{"my":["***"]},"***":2}'),
    (b'{"do":"hello","key":4711,"name":"gus"}', '{"do":"hello","key":*** (the rest is hidden)'),
    (b'{"do":"hello","key":["heron","-31"]}', '{"do":"hello","key":*** (the rest is hidden)'),
    (b'{"do":"hello","key":12}', '{"do":"hello","key":*** (the rest is hidden)'),
    (b'{"do":"move","node":4,"rule":"update","at":7}', '{"do":"move","node":4,"rule":"update","at":7}'),
    (b'{"do":"hello","name":"gus","key":"heron-31"', '{"do":"hello","name":"gus",".. (15 more characters are hidden, since they may contain a key)'),
    (b"gus heron-31", "gus .. (8 more characters are hidden, since they may contain a key)"),
    (b'"h\\u0065ron-31"', '"h.. (13 more characters are hidden, since they may contain a key)'),
    (b'["chalk"]', '[".. (7 more characters are hidden, since they may contain a key)'),
    (b"look 4", "look 4"),
    (b"\x1b[2J\xffgo\r\xe2\x80\xae", "\\x1b[2J\\xffgo\\r\\u202e"),
    (b'{"do":"\x7f"}', '{"do":"\\x7f"}'),
)
ESCAPED = ('ab"cd', "ef\\gh", "/ij/", "\\\"")  # keys with characters that JSON escapes, or may escape


class Hiding(unittest.TestCase):
    """Lines that are written by hand."""

    def test_a_key_is_hidden_however_it_is_escaped_and_wherever_it_stands(self) -> None:
        """A key may be escaped once, twice or three times. It may stand in a JSON object, in another JSON text, or in a
        line that isn't JSON. Lines without a key are shown whole."""
        for key in ESCAPED:
            hider = Hider([key, "chalk"], ["gus"])
            once = json.dumps(key)[1:-1]
            twice = json.dumps(once)[1:-1]
            for spelled in (key, once, twice, json.dumps(twice)[1:-1], key.replace("/", "\\/")):
                for line in (f'["{spelled}"]', f"look {spelled}", f'"{spelled}', f'{{"do":"hello","name":"{spelled}"', spelled,
                             json.dumps({"do": "see", "note": f"my {spelled}"}), json.dumps([spelled]), f'{{"note":"{once}"}}',
                             json.dumps({"note": json.dumps({"key": spelled})})):
                    shown = hider.line(line.encode())
                    for form in (key, once, twice):
                        self.assertNotIn(form, shown, line)
            self.assertEqual(hider.line(b'{"do":"see","node":1}'), '{"do":"see","node":1}')
            self.assertEqual(hider.line(b"look 4"), "look 4")

    def test_each_line_of_the_table_is_shown_as_it_says(self) -> None:
        for line, wanted in CASES:
            self.assertEqual(HIDER.line(line), wanted)

    def test_no_key_is_shown_if_a_line_is_cut_or_loses_or_gains_a_character(self) -> None:
        """The line has the keys of three people. It is changed at each of its characters."""
        whole = b'{"do":"hello","name":"gus","key":"heron-31","more":["swift-86",{"chalk":"chalk"}]}'
        for at in range(len(whole)):
            for line in (whole[:at], whole[at:], whole[:at] + whole[at + 1:], whole[:at] + b"\\" + whole[at:], whole[:at] + b'"' + whole[at:]):
                shown = HIDER.line(line)
                for key in HIDER.keys:
                    self.assertNotIn(key, shown, line)


if __name__ == "__main__":
    unittest.main()
