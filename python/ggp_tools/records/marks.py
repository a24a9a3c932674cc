"""Chooses how a board shows each label: as a glyph for known pieces, stones, marks and cards, otherwise as the label itself, shortened if
it is long. Different labels always look different."""

import re
from collections import Counter
from collections.abc import Iterable
from dataclasses import dataclass

LONGEST = 6
# A long text is shortened to five letters: this many at its end, and the others at its beginning. These numbers are tried in this order.
TAILS = (2, 3, 1, 4)
CUT = "\N{HORIZONTAL ELLIPSIS}"
# Without this character, some browsers draw a pawn as an emoji.
AS_TEXT = "\N{VARIATION SELECTOR-15}"
CHESS = {
    "king": "\N{BLACK CHESS KING}", "queen": "\N{BLACK CHESS QUEEN}", "rook": "\N{BLACK CHESS ROOK}", "bishop": "\N{BLACK CHESS BISHOP}",
    "knight": "\N{BLACK CHESS KNIGHT}", "pawn": f"\N{BLACK CHESS PAWN}{AS_TEXT}",
}
CHECKERS = {"man": "\N{BLACK DRAUGHTS MAN}", "king": "\N{BLACK DRAUGHTS KING}"}
PIECES = CHESS.keys() | CHECKERS.keys()
PIECE_LETTERS = {"k": "king", "q": "queen", "r": "rook", "b": "bishop", "n": "knight", "p": "pawn", "m": "man"}
SIDES = ("white", "black", "red", "blue", "green", "yellow")
SIDE_LETTERS = {"w": "white", "b": "black"}
STONE = "\N{BLACK CIRCLE}"
MARKS = {"x": "\N{MULTIPLICATION X}", "o": "\N{LARGE CIRCLE}"}
BLANKS = {"blank", "empty"}
BLANK = "\N{MIDDLE DOT}"
SUITS = {"spade": "\u2660", "heart": "\u2665", "diamond": "\u2666", "club": "\u2663"}
RED_SUITS = {"heart", "diamond"}
RANKS = {"ace": "A", "king": "K", "queen": "Q", "jack": "J", **{str(number): str(number) for number in range(2, 11)}}
CODE = re.compile(r"([wb])([kqrbnpm])")
COMPOUND = re.compile(rf"({'|'.join(SIDES)})[-_]?({'|'.join(sorted(PIECES))})")


@dataclass(frozen=True)
class Mark:
    """The content of a cell: a text, and the side that it belongs to, if any. Glyphs are larger than words."""

    text: str
    side: str = ""
    is_glyph: bool = False

    def kinds(self) -> list[str]:
        """Returns the CSS classes."""
        return ["glyph"] * self.is_glyph + [self.side] * bool(self.side)


def card_of(words: list[str]) -> Mark | None:
    """Returns the card with this rank and this suit, which may be in either order."""
    for rank, suit in (words, words[::-1]) if len(words) == 2 else ():
        suit = suit.removesuffix("s")
        if rank in RANKS and suit in SUITS:
            return Mark(f"{RANKS[rank]}{SUITS[suit]}", "red" if suit in RED_SUITS else "", True)
    return None


def piece_of(label: str, has_codes: bool) -> tuple[str, str] | None:
    """Returns the side and the piece of a label. The side may be missing."""
    words = label.split(" ")
    if match := COMPOUND.fullmatch(label):
        words = [match[1], match[2]]
    elif has_codes and (match := CODE.fullmatch(label)):
        words = [SIDE_LETTERS[match[1]], PIECE_LETTERS[match[2]]]
    sides, pieces = ([word for word in words if word in known] for known in (SIDES, PIECES))
    if len(pieces) == 1 and len(sides) == len(words) - 1 <= 1:
        return "".join(sides), pieces[0]
    return None


def has_piece_codes(labels: set[str]) -> bool:
    """Returns whether labels such as `wk` and `bp` are pieces: there must be more than two, and both sides must have some."""
    codes = [match for match in map(CODE.fullmatch, labels) if match]
    return len(codes) > 2 and len({match[1] for match in codes}) == 2


def simple_mark(label: str, labels: set[str]) -> Mark | None:
    """Returns the glyph of a stone, a mark, a card or a blank."""
    if label in SIDES or label in SIDE_LETTERS and labels >= SIDE_LETTERS.keys():
        return Mark(STONE, SIDE_LETTERS.get(label, label), True)
    if label in MARKS:
        return Mark(MARKS[label], "", True)
    if label in BLANKS or label == "b" and labels & MARKS.keys():
        return Mark(BLANK)
    return card_of(re.split("[-_ ]", label.replace("_of_", "_")))


def glyphs_of(labels: set[str]) -> dict[str, Mark]:
    """Returns the glyphs of all known labels."""
    has_codes = has_piece_codes(labels)
    pieces = {label: piece for label in labels if (piece := piece_of(label, has_codes))}
    kinds = {piece for _, piece in pieces.values()}
    known = CHECKERS if "man" in kinds and kinds <= CHECKERS.keys() else CHESS
    glyphs = {label: Mark(known[piece], side, True) for label, (side, piece) in pieces.items() if piece in known}
    for label in labels - glyphs.keys():
        if mark := simple_mark(label, labels):
            glyphs[label] = mark
    return glyphs


def common_length(texts: list[str]) -> int:
    """Returns the length of the common prefix of these texts."""
    first, last = min(texts), max(texts)
    return next((index for index, (letter, other) in enumerate(zip(first, last)) if letter != other), len(first))


def cut(text: str, tail: int) -> str:
    return f"{text[: LONGEST - 1 - tail]}{CUT}{text[-tail:]}"


def middles(texts: list[str]) -> dict[str, str]:
    """Returns the part of each text that differs from the others."""
    ahead = common_length(texts)
    behind = min(common_length([text[::-1] for text in texts]), min(map(len, texts)) - ahead)
    return {text: f"{CUT}{text[ahead : len(text) - behind][: LONGEST - 1]}" for text in texts}


def shortened(texts: Iterable[str]) -> dict[str, str]:
    """Shortens long texts. Their beginnings and ends are used if these differ, otherwise their middles. If these do not differ either,
    numbers are used."""
    all_texts = sorted(set(texts))
    shown = {text: text for text in all_texts if len(text) <= LONGEST}
    long = [text for text in all_texts if len(text) > LONGEST]
    taken = set(shown.values())
    for tail in TAILS:
        cuts = {text: cut(text, tail) for text in long}
        counts = Counter(cuts.values())
        unique = {text: short for text, short in cuts.items() if counts[short] == 1 and short not in taken}
        shown |= unique
        taken |= set(unique.values())
        long = [text for text in long if text not in unique]
    counts = Counter((middle := middles(long)).values()) if long else Counter()
    clear = {text: middle[text] for text in long if counts[middle[text]] == 1 and middle[text] not in taken}
    taken |= set(clear.values())
    return shown | clear | numbered([text for text in long if text not in clear], taken)


def numbered(texts: list[str], taken: set[str]) -> dict[str, str]:
    """Returns the beginning of each text, with a number that makes the result unique."""
    names, number = {}, 0
    for text in texts:
        number += 1
        while (candidate := f"{text[:2]}{CUT}{number}") in taken:
            number += 1
        names[text] = candidate
    return names


def marks_of(labels: Iterable[str]) -> dict[str, Mark]:
    """Returns a different mark for each label."""
    all_labels = set(labels)
    glyphs = glyphs_of(all_labels)
    counts = Counter(glyphs.values())
    marks = {label: mark for label, mark in glyphs.items() if counts[mark] == 1}
    texts = shortened(all_labels - marks.keys())
    return marks | {label: Mark(text) for label, text in texts.items()}
