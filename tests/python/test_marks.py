"""How boards show labels: different labels never look alike, and known pieces have their glyphs."""

import unittest

from ggp_tools.records.marks import LONGEST, Mark, marks_of, numbered, shortened
from ggp_tools.records.show import Named, board_page, board_places, boards_of
from html_pages import parsed

KING, PAWN, MAN, CROWNED, STONE = "\u265a", "\u265f\ufe0e", "\u26c2", "\u26c3", "\u25cf"


def shown(*labels):
    """Returns the text and the side that are shown for each label."""
    return {label: (mark.text, mark.side) for label, mark in marks_of(labels).items()}


class Glyphs(unittest.TestCase):
    def test_pieces(self):
        self.assertEqual(shown("white king", "black pawn"), {"white king": (KING, "white"), "black pawn": (PAWN, "black")})
        self.assertEqual(shown("black man", "black king"), {"black man": (MAN, "black"), "black king": (CROWNED, "black")})
        self.assertEqual(shown("wk", "bk", "bp"), {"wk": (KING, "white"), "bk": (KING, "black"), "bp": (PAWN, "black")})
        self.assertEqual(shown("whitepawn", "black_king"), {"whitepawn": (PAWN, "white"), "black_king": (KING, "black")})

    def test_which_set_a_piece_is_of(self):
        # Chess has kings but no men, so `man` among chess pieces is shown as a word.
        self.assertEqual(shown("white king", "black king"), {"white king": (KING, "white"), "black king": (KING, "black")})
        self.assertEqual(shown("white man", "black queen"), {"white man": ("whi\u2026an", ""), "black queen": ("\u265b", "black")})
        for codes in (("wk", "bk"), ("wk", "wq", "wp")):
            self.assertEqual(shown(*codes), {code: (code, "") for code in codes})
        self.assertEqual(shown("wk", "bk", "bp", "wq")["wq"], ("\u265b", "white"))

    def test_glyphs_are_drawn_larger_than_words(self):
        marks = marks_of(["x", "red", "2 spades", "white king", "wall", "blank"])
        self.assertEqual({label: mark.is_glyph for label, mark in marks.items()}, {"x": True, "red": True, "2 spades": True, "white king": True, "wall": False, "blank": False})
        self.assertEqual([mark.kinds() for mark in (Mark("x"), Mark("x", "red"), Mark("x", "", True), Mark("x", "red", True))], [[], ["red"], ["glyph"], ["glyph", "red"]])

    def test_words_beside_stones_and_marks(self):
        self.assertEqual((shown("x", "wall")["wall"], shown("w", "b", "wall")["wall"], shown("big spade")), (("wall", ""), ("wall", ""), {"big spade": ("big\u2026de", "")}))
        self.assertEqual((shown("blank"), shown("empty")), ({"blank": ("\u00b7", "")}, {"empty": ("\u00b7", "")}))
        self.assertEqual((shown("2 spades"), shown("clubs_ace")), ({"2 spades": ("2\u2660", "")}, {"clubs_ace": ("A\u2663", "")}))
        self.assertEqual((shown("1 club"), shown("11 club")), ({"1 club": ("1 club", "")}, {"11 club": ("11 \u2026ub", "")}))

    def test_stones_marks_and_cards(self):
        self.assertEqual(shown("white", "red"), {"white": (STONE, "white"), "red": (STONE, "red")})
        self.assertEqual(shown("w", "b"), {"w": (STONE, "white"), "b": (STONE, "black")})
        self.assertEqual(shown("x", "o", "b"), {"x": ("\u2715", ""), "o": ("\u25ef", ""), "b": ("\u00b7", "")})
        self.assertEqual(shown("queen hearts", "10_of_clubs"), {"queen hearts": ("Q\u2665", "red"), "10_of_clubs": ("10\u2663", "")})

    def test_what_may_be_something_else_is_text(self):
        # One code is not a set of pieces. A blank counts only next to other marks. Numbers are shown unchanged.
        for label in ("bk", "b", "w", "17", "king a", "man"):
            self.assertEqual(shown(label)[label][0] == label, label != "man", label)

    def test_words_of_one_glyph_are_text(self):
        self.assertEqual(shown("white king", "king white"), {"white king": ("whi\u2026ng", ""), "king white": ("kin\u2026te", "")})


class Texts(unittest.TestCase):
    def test_the_difference_is_kept(self):
        self.assertEqual(shown("house_of_cards", "house_of_cats")["house_of_cats"], ("hou\u2026ts", ""))
        self.assertEqual(shown("a black man stands", "a black dog stands")["a black dog stands"], ("\u2026dog", ""))

    def test_where_a_text_is_cut(self):
        for pair, cuts in (
            (("aaa1zzzzzy", "aaa2zzzzzx"), ("aaa\u2026zy", "aaa\u2026zx")), (("aaaa1zz", "aaaa2zz"), ("aa\u20261zz", "aa\u20262zz")),
            (("aaa1zzzz", "aaa2zzzz"), ("aaa1\u2026z", "aaa2\u2026z")), (("aaaa1zzz", "aaaa2zzz"), ("a\u20261zzz", "a\u20262zzz")),
            (("aaaa123456zzzz", "aaaabcdefgzzzz"), ("\u202612345", "\u2026bcdef")), (("aaaaaaa", "aaaaaaaa"), ("\u2026", "\u2026a")),
        ):
            self.assertEqual(shortened(pair), dict(zip(pair, cuts)))

    def test_a_cut_is_no_text_that_is_there(self):
        self.assertEqual(shown("a white king", "a w\u2026ng")["a white king"], ("a \u2026ing", ""))
        self.assertEqual(shown("aaaa1zzzz", "aaaa2zzzz", "\u20261"), {"aaaa1zzzz": ("aa\u20261", ""), "aaaa2zzzz": ("\u20262", ""), "\u20261": ("\u20261", "")})

    def test_numbers_where_nothing_else_helps(self):
        self.assertEqual(numbered(["abc", "abd", "xyz"], {"ab\u20262"}), {"abc": "ab\u20261", "abd": "ab\u20263", "xyz": "xy\u20264"})
        texts = [f"aaaabbbbb{letter}zzzz" for letter in "cdefghij"]
        self.assertEqual(shortened([*texts[::-1], "aaaaczzzz", *texts]), {text: f"aa\u2026{at}" for at, text in enumerate(texts, 1)} | {"aaaaczzzz": "\u2026c"})

    def test_no_two_look_alike(self):
        long = [f"{'a' * 40}{number:012b}{'c' * 40}" for number in range(3_000)]
        others = ["aa\u20261", "\u2026aa", "king", "king ", "b", "x", "o", "", "white", "aaaaaac", "aaaaabc", "aabbbb123", "aabbbb523"]
        marks = marks_of([*long, *others])
        self.assertEqual(len(set(marks.values())), len(marks))
        self.assertLessEqual(max(len(marks[text].text) for text in long), LONGEST + 2)


class Boards(unittest.TestCase):
    def cells(self, *terms):
        """Returns the classes, the title and the text of each cell of the board of these terms."""
        (board,) = boards_of([list(terms)])
        page = board_page(board, board_places(board, list(terms)), None, None, board.marks(Named()))
        found = parsed(page)("i")
        return [(" ".join(cell.get("class", [])), cell.get("title", ""), cell.has_attr("tabindex"), cell.text) for cell in found]

    def test_a_man_is_no_king(self):
        found = self.cells("(piece 1 1 black man)", "(piece 2 2 black king)")
        self.assertEqual(found, [("glyph black", "1 1: black man", True, MAN), ("glyph black", "2 2: black king", True, CROWNED)])

    def test_a_relation_may_be_the_piece(self):
        found = self.cells("(king white 1 1)", "(king black 3 2)", "(rook 3 3)", "(rook 1 2)")
        self.assertEqual([title for _, title, _, _ in found], ["1 1: king white", "1 2: rook", "3 2: king black", "3 3: rook"])

    def test_several_in_one_place(self):
        found = self.cells("(at red 1 1)", "(at blue 2 2)", "(wall 1 1)", "(wall 1 2)", "(wall 2 2)")
        self.assertEqual(found[0], ("", "1 1: red, wall", True, f"{STONE}wall"))
        self.assertEqual(found[1], ("", "", False, "wall"))

    def test_words_are_text(self):
        found = self.cells("(cell 1 1 <img)", '(cell 2 2 "><script>alert)')
        self.assertEqual([text for _, _, _, text in found], ["<img", '"><\u2026rt'])
        self.assertEqual(found[1][1], '2 2: "><script>alert')
