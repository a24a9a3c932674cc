"""Parses KIF. An atom becomes a string, and a list becomes a tuple. `Refused` says why a description is refused."""

import math
import re
from collections.abc import Callable, Collection, Hashable, Iterable, Iterator
from typing import TypeVar

from ggp_tools.printable import shown

Value, Key = TypeVar("Value"), TypeVar("Key", bound=Hashable)
Expression = str | tuple
# The name of a relation, and the number of its arguments, which is None for an atom.
Relation = tuple[str, int | None]
MOST_LEVELS = 64
# Advice for files that are not KIF, by their first bytes.
FILE_HEADS = {
    "\xef\xbb\xbf": "the file begins with a byte order mark: save it without one", "\x1f\x8b": "the file is compressed with gzip: decompress it",
    "\xff\xfe": "the file is UTF-16: save it as ASCII", "\xfe\xff": "the file is UTF-16: save it as ASCII",
}
# Messages show at most this many characters of a sentence.
MOST_SHOWN = 160
# The number at the end of a word.
DIGITS = "[0-9]+"
COMMENT = re.compile(r";[^\n]*")
# Other bytes than those of ASCII belong to an atom, and keep their case, because the letters of UTF-8 contain them.
TOKEN = re.compile(r"[()]|[^\s()]+", re.ASCII)
VARIABLE = re.compile(r"(?<![^\s()])\?")
NO_CHARACTER = re.compile(r"[^\t\n\r\x20-\x7e]")


class Refused(Exception):
    """The reason why a description cannot be grounded, in one line, with advice. If one sentence is at fault, `sentence` is its number."""

    def __init__(self, words: str, sentence: int | None = None, advice: str = "") -> None:
        super().__init__(words)
        self.sentence, self.advice = sentence, advice


class KifFault(Refused):
    """The reason why a text is not KIF. `index` is the position of the error."""

    def __init__(self, words: str, index: int, advice: str = "") -> None:
        super().__init__(words, advice=advice)
        self.index = index


def blanked(text: str) -> str:
    """Replaces the comments of a text with spaces."""
    return COMMENT.sub(lambda comment: " " * len(comment[0]), text)


def advice_for_bytes(text: str) -> str:
    """Returns advice about a text with bytes that KIF does not allow. The text was decoded as Latin-1."""
    return next((advice for head, advice in FILE_HEADS.items() if text.startswith(head)), "write it in ASCII, or in a comment")


def tokens(text: str, most_levels: float = math.inf, takes_bytes: bool = False) -> Iterator[tuple[str, int, int]]:
    """Yields each parenthesis and each atom of a text, with its index and the number of lists that contain it. Refuses a text that is not KIF, and lists
    that are nested more than `most_levels` deep. With `takes_bytes`, accepts any bytes, because a referee may send them."""
    text = blanked(text)
    if not takes_bytes and (bad := NO_CHARACTER.search(text)):
        raise KifFault(f"a byte that is not a character of KIF: {bad[0]!r}", bad.start(), advice_for_bytes(text))
    opened = []
    for token in TOKEN.finditer(text):
        if token[0] == ")":
            if not opened:
                raise KifFault("a `)` with no open list", token.start(), "an earlier sentence may have one `)` too many")
            opened.pop()
        yield token[0], token.start(), len(opened)
        if token[0] == "(":
            if len(opened) == most_levels:
                raise KifFault(f"lists are nested more than {most_levels} deep", token.start())
            opened.append(token.start())
    if opened:
        raise KifFault("a list that is not closed", opened[-1], "add a `)`")


def expressions(text: str, most_levels: float = MOST_LEVELS, takes_bytes: bool = False) -> list[Expression]:
    """Parses the expressions of a text, in lower case. Refuses lists that are nested more than `most_levels` deep."""
    # Equal atoms share one object, because a description repeats most of its atoms many times.
    levels, known = [[]], {}
    for token, _, _ in tokens(text, most_levels, takes_bytes):
        if token == "(":
            levels.append([])
        elif token == ")":
            closed = tuple(levels.pop())
            levels[-1].append(closed)
        else:
            levels[-1].append(known.get(token) or known.setdefault(token, token.encode("latin-1").lower().decode("latin-1")))
    return levels[0]


def has_variables(text: str) -> bool:
    return VARIABLE.search(blanked(text)) is not None


def starts(text: str, most_levels: float = math.inf, takes_bytes: bool = False) -> list[int]:
    """Returns the index where each expression of a text begins."""
    return [index for token, index, around in tokens(text, most_levels, takes_bytes) if not around and token != ")"]


def place_of(text: str, index: int) -> str:
    """Returns a text with the line and the column of an index."""
    return f"line {text.count(chr(10), 0, index) + 1}, column {index - text.rfind(chr(10), 0, index)}"


def told(text: str, why: Refused) -> str:
    """Formats the refusal of a text: the place, the reason, the sentence and the advice."""
    words, index = str(why), why.index if isinstance(why, KifFault) else None
    if why.sentence is not None:
        index, words = starts(text)[why.sentence], f"{words}: {quoted(expressions(text)[why.sentence])}"
    advice = f"; {why.advice}" if why.advice else ""
    return (f"{place_of(text, index)}: " if index is not None else "") + words + advice


def spelled(expression: Expression) -> str:
    """Returns the canonical text of an expression."""
    if isinstance(expression, str):
        return expression
    return "(" + " ".join(map(spelled, expression)) + ")"


def quoted(expression: Expression, most: int = MOST_SHOWN) -> str:
    """Returns the canonical text of an expression for a message, shortened if it is long."""
    return shown(spelled(expression), most)


def atoms(expression: Expression) -> Iterator[str]:
    """Yields every atom of an expression."""
    if isinstance(expression, str):
        yield expression
    else:
        for member in expression:
            yield from atoms(member)


def is_variable(expression: Expression) -> bool:
    return isinstance(expression, str) and expression.startswith("?")


def variables(expression: Expression) -> list[str]:
    """Returns the variables of an expression in their order, without duplicates."""
    return list(dict.fromkeys(atom for atom in atoms(expression) if atom.startswith("?")))


def fits(pattern: Expression, term: Expression, values: dict[str, Expression]) -> bool:
    """Returns whether the pattern equals the term for some values of the pattern's variables. Adds these values to `values`."""
    if is_variable(pattern):
        return values.setdefault(pattern, term) == term
    if isinstance(pattern, str) or isinstance(term, str):
        return pattern == term
    return len(pattern) == len(term) and all(fits(part, member, values) for part, member in zip(pattern, term))


def put(term: Expression, values: dict[str, Expression]) -> Expression:
    """Replaces the variables of a term with their values in `values`."""
    if isinstance(term, str):
        return values.get(term, term)
    return tuple([put(member, values) for member in term])


def place(expression: Expression) -> tuple:
    """Returns the key that sorts the expressions of the output."""
    if isinstance(expression, str):
        digits = expression.lstrip("0")
        return (0, len(digits), digits, expression) if expression.isdigit() else (1, expression)
    return 2, tuple(map(place, expression))


def relation(atom: Expression) -> Relation:
    """Returns the relation of an atomic sentence."""
    return (atom, None) if isinstance(atom, str) else (atom[0], len(atom) - 1)


def arguments_of(atom: Expression) -> tuple[Expression, ...]:
    return () if isinstance(atom, str) else atom[1:]


def applied(name: str, arguments: Collection[Expression]) -> Expression:
    """Returns the sentence or the term of this name with these arguments."""
    return (name, *arguments) if arguments else name


def head_of(sentence: Expression) -> Expression:
    """Returns the head of a rule, or the fact itself."""
    return sentence[1] if isinstance(sentence, tuple) and sentence[:1] == ("<=",) else sentence


def levels(expression: Expression) -> int:
    """Returns how deeply the lists of an expression are nested."""
    return 0 if isinstance(expression, str) else 1 + max(map(levels, expression), default=0)


def grouped(values: Iterable[Value], key: Callable[[Value], Key]) -> dict[Key, list[Value]]:
    """Groups values by a key. The groups, and the values in each, keep their order."""
    groups: dict[Key, list[Value]] = {}
    for value in values:
        groups.setdefault(key(value), []).append(value)
    return groups


def fresh(word: str, taken: Collection[str], ending: str = "") -> str:
    """Appends hyphens to a word until no name in `taken` is this word followed by a match of the regular expression `ending`."""
    while any(re.fullmatch(re.escape(word) + ending, name) for name in taken):
        word += "-"
    return word
