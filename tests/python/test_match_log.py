"""The events of a JSON log: how they are written and read, and lines that are not events."""

import io
import json
import subprocess
import sys
import unittest
from dataclasses import replace
from unittest.mock import patch

from ggp_tools import match_log
from ggp_tools.match_log import (
    MOST_MS, MOST_NUMBER, NAMES, End, Event, Host, Message, Open, Other, event_of, events, last_run, line_of, text_of, values_of, whole_lines,
)
from hypothesis import given
from hypothesis import strategies as st
from support import TOP, InFolder

MESSAGE = Message("m1", 0, "ann", 3, "PLAY", 1, 1_764_447_301_123, 12, "(PLAY m1 (a b))", "a", None, None)
MISSED = Message("m1", 1, "bob", 1, "START", None, None, 5_000, "(START m1 blue ... 5 5)", None, "TO", "no answer in time: nothing received")
OTHERS = [
    Open("m1", 5), Open("m1", None), End("m1", 6, "STOP"), Host("m1", "me@there:22"), Other("absent", {"match": "m1", "role": 0, "player": "ann"}),
    Other("no_record", {"match": "m1 \x1b", "reason": "refused badid"}), Other("left_out", {"count": 12}),
    Other("log", {"program": "ggp_manager", "version": "0.3.0"}), Other("lost", {"match": "m1", "time": 7, "reason": "ssh: gone"}),
    Other("held", {"match": "m1", "reason": None}),
]
LINE = line_of(MESSAGE)
TEXTS = st.text(st.characters(max_codepoint=255))


def changed(**values: object) -> bytes:
    """Returns the line of the message with other values."""
    return json.dumps({**json.loads(LINE), **values}).encode()


class Lines(unittest.TestCase):
    def test_a_message_is_written_as_the_referee_writes_it(self):
        wanted = b'{"event":"message","match":"m1","role":0,"player":"ann","number":3,"kind":"PLAY","round":1,"time":1764447301123,"ms":12,'
        self.assertEqual(LINE, wanted + b'"message":"(PLAY m1 (a b))","answer":"a","error":null,"reason":null}\n')
        self.assertIn(rb'"message":"\"\\\u001b\u00ff"', line_of(replace(MESSAGE, message='"\\\x1b\xff')))

    def test_each_event_is_read_as_it_was_written(self):
        self.assertEqual({type(event) for event in (MESSAGE, *OTHERS)}, {*NAMES, Other})
        for event in (MESSAGE, MISSED, *OTHERS):
            self.assertEqual(event_of(line_of(event)), event)

    def test_the_documents_show_each_event_as_it_is_written(self):
        rows = [row.strip() for name in ("COMMANDS.md", "COMPETITION.md") for row in (TOP / "docs" / name).read_bytes().splitlines()]
        rows = [row for row in rows if row.startswith(b'{"event":')]
        for row in rows:
            self.assertEqual(line_of(event_of(row)), row + b"\n")
        self.assertEqual({json.loads(row)["event"] for row in rows}, {values_of(event)[0] for event in (MESSAGE, *OTHERS)})

    @given(TEXTS, TEXTS)
    def test_texts_are_any_bytes(self, message: str, answer: str):
        event = Message("m", 0, "a", 1, None, None, 0, 0, message, answer, None, None)
        line = line_of(event)
        self.assertEqual((event_of(line), json.loads(line)["answer"].encode("latin-1")), (event, answer.encode("latin-1")))
        self.assertTrue(all(0x20 <= byte <= 0x7E for byte in line[:-1]))

    def test_what_is_no_event(self):
        for line in (
            b"", b"{}", b"[]", b"null", b'{"event":[]}', b'{"event":"open"}', b'{"event":"open","match":"m1","time":1,"more":2}', LINE[:-3],
            b"[" * 100_000, b'{"event":"left_out","count":' + b"9" * 5_000 + b"}", b"\xff", b'{"event":"left_out","count":"\xff"}', b'{"event":"other","x":[1]}', b'{"event":"other","x":1.5}',
        ):
            self.assertIsNone(event_of(line), line[:80])

    def test_values_that_no_log_has(self):
        for values in (
            {"role": -1}, {"role": True}, {"role": 1.0}, {"role": None}, {"number": 0}, {"time": MOST_NUMBER + 1}, {"ms": MOST_MS + 1}, {"time": "now"},
            {"match": ""}, {"match": "a b"}, {"player": "x" * 65}, {"player": "\u001b"}, {"kind": "INFO", "round": None}, {"kind": "STOP"}, {"round": None}, {"error": "TO"},
            {"answer": None}, {"answer": None, "error": "RT"}, {"answer": "\u0100"}, {"answer": "\ud800"}, {"message": 1}, {"reason": 1},
        ):
            self.assertIsNone(event_of(changed(**values)), values)
        self.assertIsNotNone(event_of(changed(time=MOST_NUMBER, ms=MOST_MS)))
        self.assertIsNone(event_of(line_of(End("m1", 6, "PLAY"))))

    def test_the_moment_of_a_message_is_that_of_its_answer(self):
        self.assertEqual([event.moment() for event in (MESSAGE, MISSED, OTHERS[0], OTHERS[3])], [1_764_447_301.135, None, 0.005, None])

    def test_the_turn_that_a_message_asks_for(self):
        self.assertEqual((MESSAGE.turn(), MISSED.turn()), (2, 0))


class Files(unittest.TestCase):
    def test_only_whole_lines_are_given(self):
        self.assertEqual(list(whole_lines(io.BytesIO(b"a\n\nb\xff\r\nlast"))), [b"a\n", b"\n", b"b\xff\r\n"])

    def test_a_line_that_is_too_long_is_passed_over(self):
        with patch.object(match_log, "LONGEST_LINE", 4):
            self.assertEqual(list(whole_lines(io.BytesIO(b"abc\nabcd\nab\nabcdefghijk\n\nabcdefg"))), [b"abc\n", b"ab\n", b"\n"])

    def test_what_is_no_event_is_passed_over(self):
        data = b"Welcome\x1b[2J\n" + LINE + b"{}\n" + LINE[:40] + LINE + line_of(OTHERS[0]) + LINE[:-1]
        self.assertEqual(list(events(io.BytesIO(data))), [MESSAGE, OTHERS[0]])

    def test_the_last_run_of_a_match(self):
        again, host = Open("m1", 9), Host("m1", "two")
        found: list[Event] = [*OTHERS[-3:], Host("m1", "one"), Open("m1", 5), MESSAGE, OTHERS[-2], host, again, Open("m2", 10), MISSED]

        def run(events: list[Event], match: str) -> list[Event]:
            return last_run(io.BytesIO(b"".join(map(line_of, events))), match)

        self.assertEqual(run(found, "m1"), [host, again, MISSED])
        self.assertEqual(run(found[:7], "m1"), [Host("m1", "one"), Open("m1", 5), MESSAGE])
        self.assertEqual((run(found, "m2"), run(found, "m3"), run([MESSAGE], "m1")), ([Open("m2", 10)], [], [MESSAGE]))
        ended = [Open("m1", 5), MESSAGE, End("m1", 6, "STOP")]
        self.assertEqual([run(ended, "m1"), run([*ended, again], "m1")], [ended, [again]])
        # Another role's START may be answered before the event of the first role.
        early = [MISSED, Open("m1", 5), MESSAGE]
        self.assertEqual([run(found, "m1") for found in (early, early * 2, [host, *early] * 2)], [early, early, [host, *early]])


class Texts(unittest.TestCase):
    def test_a_message_in_one_line(self):
        self.assertEqual(text_of(MESSAGE), "m1 role 0 ann message 3 (PLAY m1 (a b)): a, 12 ms")
        said = "m1 role 1 bob message 1 (START m1 blue ... 5 5): TO (no answer in time: nothing received), 5000 ms"
        self.assertEqual([text_of(MISSED), text_of(replace(MISSED, reason=None))], [said, said.replace(" (no answer in time: nothing received)", "")])
        long = replace(MESSAGE, message="x" * 200, answer="y" * 201)
        self.assertEqual(text_of(long), f"m1 role 0 ann message 3 {'x' * 200}: {'y' * 200}.., 12 ms")

    def test_other_events(self):
        self.assertEqual(list(map(text_of, OTHERS)), [
            "m1 open 1970-01-01T00:00:00.005Z", "m1 open", "m1 end STOP 1970-01-01T00:00:00.006Z", "m1 host me@there:22", "m1 absent 0 ann",
            "m1 ? no record refused badid", "left out 12", "log ggp_manager 0.3.0", "m1 lost ssh: gone", "m1 held",
        ])
        self.assertEqual(text_of(Other("odd", {"match": 5})), "5 odd")

    @given(TEXTS, TEXTS)
    def test_nothing_that_a_terminal_obeys_and_bounded(self, message: str, answer: str):
        long = answer * 300
        for event in (Message("m", 0, "a", 1, None, None, 0, 0, message, long, None, None), Other("no_record", {"match": "m", "reason": long}), Other(message, {long: long})):
            text = text_of(event)
            self.assertTrue(text.isascii() and text.isprintable() and len(text) < 500, text)


class Printing(InFolder):
    def printed(self, *files: object) -> tuple[int, str, str]:
        done = subprocess.run([sys.executable, TOP / "python/ggp-records", "log", *files], capture_output=True, text=True)
        return done.returncode, done.stdout, done.stderr

    def test_logs_are_printed_as_text(self):
        first, second = self.folder / "1", self.folder / "2"
        first.write_bytes(line_of(OTHERS[0]) + LINE)
        second.write_bytes(line_of(MISSED) + b"\x1b[2J\n" + LINE[:-1])
        texts = [text_of(event) + "\n" for event in (OTHERS[0], MESSAGE, MISSED)]
        self.assertEqual(self.printed(first), (0, "".join(texts[:2]), ""))
        self.assertEqual(self.printed(self.folder), (1, "".join(texts), "ggp-records: skipped 1 line that is not an event of a log\n"))
        self.assertEqual(self.printed(first, second)[1], "".join(texts))
        status, printed, said = self.printed(self.folder / "3")
        self.assertEqual((status, printed), (3, ""), said)
