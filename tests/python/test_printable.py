"""Text from other programs, files and players is printed in printable ASCII, up to a length."""

import pytest
from ggp_tools.printable import counted, message_lines, message_of, printable, shown, visible


@pytest.mark.parametrize(
    ("found", "wanted"),
    [
        (printable(" a~\x1f\x7f\u00e9"), " a~???"),
        (message_of("x" * 999 + "\n"), "x" * 999 + "?"),
        (message_of("x" * 1_001), "x" * 1_000 + ".."),
        (message_lines(b"\n\n one\ntwo \xff\n\n"), ["one", "two ?"]),
        (message_lines(b"one\n" + b"x" * 65_532), ["one", "x" * 1_000 + ".."]),
        (message_lines(b"one\n" + b"x" * 65_533), ["ne", "x" * 1_000 + ".."]),
        (visible(" a~"), " a~"),
        (visible(" a~\x1f\x7f"), " a~\\u{1f}\\u{7f}"),
        (visible("\u00e9"), "\\u{e9}"),
        (shown("abc", 3), "abc"),
        (shown("ab\ncd", 3), "ab\\u{a}.."),
        ([counted(number, "row") for number in (0, 1, 2, 1_000)], ["0 rows", "1 row", "2 rows", "1,000 rows"]),
        ([counted(number, "match", "has", "have") for number in (0, 1, 2)], ["0 matches have", "1 match has", "2 matches have"]),
    ],
)
def test_text_is_made_safe(found, wanted):
    assert found == wanted
