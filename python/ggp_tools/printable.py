"""Makes text from other programs and files safe to print and to store: printable ASCII of limited length."""

import re

NOT_PRINTABLE = re.compile(r"[^\x20-\x7e]")
# The maximum numbers of characters in a line of output, and in a line that quotes another program. The last lines of another program's
# output are searched for only in its last MOST_READ bytes.
MOST_OF_LINE, MOST_SHOWN, MOST_READ = 10_000, 1_000, 1 << 16
MORE = ".."


def printable(text: str, most: int = MOST_OF_LINE) -> str:
    """Returns at most `most` characters of a text, with a question mark for each character that is not printable ASCII."""
    return NOT_PRINTABLE.sub("?", text[:most]) + MORE * (len(text) > most)


def message_of(text: str) -> str:
    """Shortens a line of another program's output to 1,000 characters, and makes it printable."""
    return printable(text, MOST_SHOWN)


def message_lines(data: bytes) -> list[str]:
    """Returns the last lines of another program's output, within its last 64 KiB."""
    return [message_of(line) for line in data[-MOST_READ:].decode("ascii", "replace").strip().splitlines()]


def visible(text: str) -> str:
    """Replaces each character that is not printable ASCII with its code."""
    if text.isascii() and text.isprintable():
        return text
    return "".join(letter if " " <= letter <= "~" else f"\\u{{{ord(letter):x}}}" for letter in text)


def shown(text: str, most: int = MOST_OF_LINE) -> str:
    """Returns at most `most` characters of a text, with a code for each character that is not printable ASCII."""
    return visible(text[:most]) + MORE * (len(text) > most)


def counted(number: int, word: str, *verbs: str) -> str:
    """Returns a number with a noun in the singular or plural. If two verbs are given, the first follows a singular, and the second a
    plural."""
    plural = "" if number == 1 else "es" if word.endswith("ch") else "s"
    return " ".join([f"{number:,} {word}{plural}", *verbs[number != 1 :][:1]])
