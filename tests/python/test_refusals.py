"""Every command reports a refused description in the same words, with the place, the sentence and the advice."""

import contextlib
import io
import json
import pathlib

import pytest
from ggp_tools.descriptions.loading import NoDescription, look_at_sentences, sentence_starts
from ggp_tools.holding.command import Holding
from ggp_tools.instantiating.making import NEVER, Making
from ggp_tools.kif import Refused, told
from ggp_tools.records.collection import game_of

MOVES = "let `next` record what the moves did, and read that with `true`"
REFUSED = [
    ("(role a)\n(init (p", "line 2, column 7: a list that is not closed; add a `)`"),
    ("(role a)\n (init p))", "line 2, column 10: a `)` with no open list; an earlier sentence may have one `)` too many"),
    ("\xef\xbb\xbf(role a)", "line 1, column 1: a byte that is not a character of KIF: '\xef'; the file begins with a byte order mark: save it without one"),
    ("\x1f\x8b\x08", "line 1, column 1: a byte that is not a character of KIF: '\\x1f'; the file is compressed with gzip: decompress it"),
    ("(role a)\n(<= (true p) (true q))", "line 2, column 1: (true p) can't be a head: (<= (true p) (true q)); `next` and `init` say what is true in a state"),
    ("(role a)\n; goals\n(goal a)", "line 3, column 1: (goal a) is not a sentence: (goal a); write (goal _ _)"),
    ("(role a)\n(<= (legal a b) (next c))", "line 2, column 1: (next c) can't be in a body: (<= (legal a b) (next c)); use `true` for what is true in the state"),
    ("(role a) (<= (legal a b) (does a b))", f"line 1, column 10: legal depends on does: (<= (legal a b) (does a b)); {MOVES}"),
    ("(role a)\n(<= (p b) (does a b)) (<= (goal a 1) (p b))", None),
]


@pytest.mark.parametrize(("text", "words"), REFUSED)
def test_each_command_says_the_same(text: str, words: str | None, tmp_path: pathlib.Path) -> None:
    file = tmp_path / "game.kif"
    file.write_bytes(text.encode("latin-1"))
    with pytest.raises(Refused) as made, contextlib.redirect_stderr(io.StringIO()):
        Making(text, 60, NEVER).run()
    instantiated = told(text, made.value)
    with pytest.raises(NoDescription) as loaded:
        sentence_starts(file.read_bytes())
        look_at_sentences(file.read_bytes())
    assert (words or instantiated, str(loaded.value)) == (instantiated, instantiated)
    with pytest.raises(Refused) as sorted_out:
        game_of(file)
    held = Holding(text, str(file)).held(json.dumps({}))[1]
    # The interpreter of ground rules evaluates each atomic sentence of the last description separately, so it reports a different sentence.
    if words:
        assert (str(sorted_out.value), held) == (words, f"not followed: {file}: {words}")
    assert held.startswith(f"not followed: {file}: line ")
