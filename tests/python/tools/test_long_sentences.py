"""Sentences of documents that are too long, and where sentences end."""
import unittest

from documents import MOST_WORDS, sentences, too_long, words


def faults(text: str) -> list[int]:
    """Returns the numbers of the lines with sentences that are too long."""
    lines = [(number, line, line.startswith("    ")) for number, line in enumerate(text.splitlines(), 1)]
    return [number for number, _ in too_long(lines)]


def of_words(count: int) -> str:
    """Returns a sentence of this many words."""
    return f"{' '.join(['word'] * count)}."


class Sentences(unittest.TestCase):
    def test_the_longest_sentence_and_one_word_more(self) -> None:
        self.assertEqual(faults(of_words(MOST_WORDS)), [])
        self.assertEqual(faults(of_words(MOST_WORDS + 1)), [1])

    def test_sentences_of_one_paragraph_are_counted_apart(self) -> None:
        self.assertEqual(faults(f"{of_words(30)} {of_words(30)} {of_words(41)}"), [1])
        self.assertEqual(faults(f"**{of_words(30)}** {of_words(30)}"), [])

    def test_a_sentence_goes_on_in_the_next_line(self) -> None:
        self.assertEqual(faults(f"First.\n\n{of_words(21)[:-1]}\n{of_words(20)}"), [3])

    def test_items_and_cells_stand_alone(self) -> None:
        half = of_words(25)[:-1]
        self.assertEqual(faults(f"{half}:\n\n- {half}\n- {half}\n  1. {half}\n# {half}\n"), [])
        self.assertEqual(faults(f"| {half} | {half} |\n| --- | --- |\n| {of_words(41)} | a |"), [3])

    def test_code_is_no_sentence_and_a_span_one_word(self) -> None:
        self.assertEqual(faults(f"Run:\n\n    {of_words(60)}\n"), [])
        self.assertEqual(words("the line `a b. c d` and [two words](../a/b.md#c)"), 6)

    def test_no_full_stop_in_code_ends_a_sentence(self) -> None:
        self.assertEqual(sentences("It is `a. b`, or `c`. Then `d`!"), ["It is `a. b`, or `c`.", "Then `d`!"])
