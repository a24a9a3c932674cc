"""Reads TOML, and determines the line of each value. Python's parser does not report lines, so this module finds them in the text that the
parser has accepted."""

import itertools
import re
import tomllib
from collections import Counter
from collections.abc import Iterator

# The keys and indexes that lead to a value.
Path = tuple[str | int, ...]
# The tokens of a statement, each with its line and with the number of brackets and braces that are open after it.
Statement = list[tuple[int, str, int]]
# Multi-line and single-line strings, comments, punctuation, and everything between them.
TOKEN = re.compile(
    r'"""(?:[^\\]|\\.)*?"{3,5}|\'\'\'.*?\'{3,5}|"(?:[^"\\]|\\.)*"|\'[^\']*\'|#[^\n]*|[\[\]{}=,\n]|[^\s\[\]{}=,"\'#]+', re.DOTALL
)
PUNCTUATION = frozenset("[]{}=,\n")
PLACE = re.compile(r" \(at line (\d+), column \d+\)")
KEY = re.compile(r"\s*([A-Za-z0-9_-]+)")


# The time that Python's parser needs for a dotted key grows with the square of the number of dots, so more dots than this are refused.
MOST_DOTS = 100
# Each key, table and member of an array has one of these characters. Because each value takes memory, a file may have only this many of these
# characters. The limit suffices for the longest schedule and the maximum number of players.
SIGNS, MOST_SIGNS = frozenset("=,["), 150_000


class TomlFault(Exception):
    """The reason why a text is not TOML, with the line of the error, and the key at the beginning of this line, if any."""

    def __init__(self, line: int, key: str, words: str) -> None:
        super().__init__(words)
        self.line, self.key, self.words = line, key, words


def read_toml(text: str) -> tuple[dict, dict[Path, int]]:
    """Returns the values of a text, and the lines of its tables, keys and members of arrays."""
    if text.count(".") > MOST_DOTS or sum(map(text.count, SIGNS)) > MOST_SIGNS:
        refuse_too_many(text)
    try:
        return tomllib.loads(text), lines_of(text)
    except tomllib.TOMLDecodeError as why:
        raise fault_of(text, str(why)) from None
    except RecursionError:
        raise TomlFault(1, "", "its arrays or tables are nested too deeply") from None
    except ValueError:
        # Python does not convert a number with that many digits.
        raise TomlFault(1, "", "a number in it has too many digits") from None


def refuse_too_many(text: str) -> None:
    """Refuses a text that has more dots between two punctuation marks than a key may have, or more of the characters SIGNS than a file may have.
    Python's parser reads no further than the first unfinished string."""
    line, dots, signs, end = 1, 0, 0, 0
    for token in TOKEN.finditer(text):
        if text[end : token.start()].strip():
            return
        word, end = token[0], token.end()
        dots = 0 if word in PUNCTUATION else dots + word.count(".") * (word[0] not in "\"'#")
        signs += word in SIGNS
        if dots > MOST_DOTS or signs > MOST_SIGNS:
            what = f"{MOST_DOTS} dots" if dots > MOST_DOTS else f"{MOST_SIGNS:,} characters `=`, `,` and `[`"
            raise TomlFault(line, "", f"there are more than {what} outside of texts and comments")
        line += word.count("\n")


def fault_of(text: str, why: str) -> TomlFault:
    """Turns a message of Python's parser into an error with the line that the message names."""
    lines = text.split("\n")
    place = PLACE.search(why)
    line = min(int(place[1]), len(lines)) if place else len(lines)
    key = KEY.match(lines[line - 1])
    return TomlFault(line, key[1] if key else "", f"this is not TOML: {why}")


def statements(text: str) -> Iterator[Statement]:
    """Yields the statements of a text. A statement is a header, or a key with its value."""
    statement, depth, line = [], 0, 1
    for token in TOKEN.finditer(f"{text}\n"):
        word = token[0]
        if word == "\n" and not depth:
            if statement:
                yield statement
            statement = []
        elif word != "\n" and not word.startswith("#"):
            depth += {"[": 1, "{": 1, "]": -1, "}": -1}.get(word, 0)
            statement.append((line, word, depth))
        line += word.count("\n")


def names_of(words: list[str]) -> Path:
    """Returns the names in a dotted key, which Python's parser splits."""
    value, names = tomllib.loads(f"{''.join(words)} = 0"), ()
    while isinstance(value, dict):
        ((name, value),) = value.items()
        names += (name,)
    return names


def member_lines(statement: Statement) -> Iterator[int]:
    """Yields the line of each member of the array that is the value of a statement."""
    for (_, word, depth), (line, following, _) in itertools.pairwise(statement):
        if depth == 1 and word in ("[", ",") and following != "]":
            yield line


def lines_of(text: str) -> dict[Path, int]:
    """Returns the lines of the values in a text that is TOML."""
    lines, counts, table = {(): 1}, Counter(), ()
    for statement in statements(text):
        line, words = statement[0][0], [word for _, word, _ in statement]
        if words[0] == "[":
            is_member = words[1] == "["
            table = header_path(names_of([word for word in words if word not in "[]"]), is_member, counts)
            lines.setdefault(table, line)
            continue
        value = words.index("=") + 1
        path = (*table, *names_of(words[: value - 1]))
        lines[path] = line
        if words[value] == "[":
            lines |= {(*path, number): member for number, member in enumerate(member_lines(statement[value:]))}
    return lines


def header_path(names: Path, is_member: bool, counts: Counter) -> Path:
    """Returns the path of the table that a header begins; `counts` gives the number of members of each array of tables so far."""
    path = ()
    for number, name in enumerate(names, 1):
        path += (name,)
        counts[path] += is_member and number == len(names)
        if counts[path]:
            path += (counts[path] - 1,)
    return path
