"""The templates show all names, moves and answers as text. No element and no attribute of a page comes from these texts."""

import json
from types import SimpleNamespace as Value

import jinja2.runtime
import markupsafe
import pytest
from ggp_tools import templating
from ggp_tools.records.show import page_of, read_record
from ggp_tools.templating import page, visible
from hypothesis import given, settings
from hypothesis import strategies as st
from html_pages import parsed
from support import GAMES

PIECES = [
    "<", ">", "&", '"', "'", "=", "/", " ", "\n", "a", "(", "<script>alert(1)</script>", "</title>", "</style>", "</script>", "<!--", "-->", "]]>",
    "<img src=x onerror=alert(1)>", "'onload='alert(1)", "{{", "{%", "&lt;", "javascript:", "\0", "\x1b[2J", "\u202e", "\ud800", "\u00e9",
]
TEXTS = st.lists(st.sampled_from(PIECES), min_size=1, max_size=4).map("".join)
HARMLESS = "name"


def values_of(text: str) -> dict[str, object]:
    """Returns values for the arguments of macros, by name. `text` replaces every value that comes from outside."""
    match = Value(id=text, game=text, players=(text, text), start=1, play=2)
    status = Value(players=((text, text), (text, text)), text=text, since=1.0, clock=text, is_of_players=True, mover=text)
    found = Value(boards=markupsafe.Markup("<p>made</p>"), terms=[text, text], before={text}, gone=[text], is_empty=True, more=2)
    html = markupsafe.Markup("<p>made</p>")
    texts = [text, text]
    numbers = dict.fromkeys(("count", "of_all", "shown", "waiting", "lost", "open", "unread", "turn", "turns", "number", "more", "mean", "moment"), 2)
    numbers |= dict.fromkeys(("x", "y", "width", "height", "radius"), 3) | {"is_ground": False, "is_running": False}
    made = dict.fromkeys(("plot", "boards", "state", "control"), html)
    lists = dict.fromkeys(("notes", "remarks", "lines", "left_out", "ids", "terms", "now", "gone", "heads", "games", "roles", "names", "across"), texts)
    pairs = {"missed": [(text, 1)], "replaced": [(text, 1)], "spans": [(text, text), ("other", text)], "players": status.players}
    pairs["moves"] = [Value(text=text, error=error, why=text, is_idle=is_idle) for error, is_idle in ((text, False), ("", True), ("", False))]
    others = {"seats": [(text, text, True), (text, text, False)], "marks": [Value(text=text, side=text)] * 2, "matches": [match]}
    others |= {"match": match, "status": status, "found": found, "clocks": match, "player_text": text.encode("utf-8", "replace"), "up": texts}
    return numbers | made | lists | pairs | others


def values_of_macro(text: str) -> dict[str, dict[str, object]]:
    """Returns the arguments of the macros that need special arguments."""
    match, error = values_of(text)["match"], Value(match=values_of(text)["match"], player=text, turn=1, move=text)
    row = {"left": 1, "y": 1, "player": text, "low": 1, "high": 2, "x": 1, "rating": 1, "half": 1}
    answer = Value(turn=text, error=text, message=text, answer=text, move=text)
    return {
        "competition.standings": {"rows": [(text, ["1", text, text])], "up": "../"},
        "competition.crosstable": {"rows": [["1", text, text]]},
        "competition.head": {"first": [(text, [text, text])]},
        "competition.bracket": {"rounds": [[[(text, text, True), (text, text, False)]]], "first": 1},
        "competition.rounds": {"rows": [(1, (text, text), [text]), (1, (text, ""), [text])], "count": 5},
        "competition.rules": {"text": text.encode("utf-8", "replace")},
        "competition.seats": {"rows": [(text, text, [text])]},
        "competition.errors": {"rows": [(text, answer, text)], "count": 5},
        "live.replaced": {"rows": [(error, 1, text, text)]},
        "competition.match_list": {"rows": [(match, text)]},
        "live.answers": {"rows": [(text, text, text, 1)]},
        "live.seats": {"players": (text, text)},
        "live.waiting": {"waiting": text},
        "boards.terms": {"before": None},
        "boards.open_hexagons": {"lean": 1, "shift": 2, "halves": 3, "tops": {1: 2}},
        "boards.cell": {"tag": "button", "marks": [Value(text=visible(text), side=text)] * 2},
        "plots.ratings": {"rows": [row], "ticks": [(1, text)]},
        "plots.goals": {"lines": [(1, text)], "dots": [(1, 2)], "means": [(1, 2)]},
        "plots.times": {"bars": [(1, 2, 3, 4)], "ticks": [(1, text)]},
    }


def macros_of_all() -> dict[str, jinja2.runtime.Macro]:
    """Returns each macro of the templates by name, except for those that get only numbers, constants and the output of other macros."""
    templates = sorted(path.stem for path in templating.FOLDER.glob("*.html") if "{% macro" in path.read_text())
    found = {f"{template}.{macro.name}": macro for template in templates for macro in vars(templating.macros(template)).values() if isinstance(macro, jinja2.runtime.Macro)}
    return {name: found[name] for name in sorted(found) if name not in ("plots.plot", "plots.number", "plots.line", "plots.dot")}


def made_by(name: str, text: str) -> str:
    macro, own = macros_of_all()[name], values_of_macro(text).get(name, {})
    known = values_of(text) | own
    return str(macro(**{argument: known.get(argument, text) for argument in macro.arguments}))


def shape_of(html: str | bytes) -> list[tuple[str, list[str]]]:
    """Returns the elements of a page, each with the names of its attributes, and the places of comments."""
    found = parsed(html)
    return [(element.name, sorted(element.attrs)) for element in found.find_all()] + [("comment", [])] * sum(type(text).__name__ == "Comment" for text in found.strings)


def assert_same_shape(html: str | bytes, harmless: str | bytes) -> None:
    assert shape_of(html) == shape_of(harmless)
    text = html if isinstance(html, str) else html.decode("ascii")
    assert not [letter for letter in text if letter < " " and letter != "\n" or 0xD800 <= ord(letter) < 0xE000 or letter == "\u202e"]


@pytest.mark.parametrize("name", macros_of_all())
@given(TEXTS)
@settings(max_examples=20, deadline=None)
def test_a_macro_has_all_texts_as_text(name: str, text: str) -> None:
    made = made_by(name, text)
    assert_same_shape(made, made_by(name, HARMLESS))
    if HARMLESS in made_by(name, HARMLESS) and "\n" not in text:
        said = parsed(made)
        attributes = [value for element in said.find_all() for value in element.attrs.values() if isinstance(value, str)]
        assert visible(text) in said.get_text() or any(visible(text) in value for value in attributes)


def whole_pages(text: str) -> list[bytes]:
    """Returns each kind of page, with this text wherever a page shows text from outside."""
    record = json.loads((GAMES / "tictactoe.out").read_text().splitlines()[-1])
    record |= {"matchId": text, "players": [text] * 2, "roles": [text] * 2, "startMarks": [text] * 2, "endMarks": [text] * 2}
    record |= {"moves": [[text] * 2 for _ in record["moves"]], "errors": [[text] * 2 for _ in record["errors"]], "states": [[text] for _ in record["states"]]}
    row = {"name": text, "page": text, "game": text, "players": [(text, 1)], "phase": text, "turns": 1, "winner": text, "verdict": text, "is_lawful": False}
    live = {"now": 1.0, "events": text, "reload": 10}
    return [
        page_of(read_record(json.dumps(record).encode())),
        page("records", title=text, rows=[row]),
        page("parts", title=text, script="live.js", live=live, parts=[]),
    ]


@given(TEXTS)
@settings(max_examples=40, deadline=None)
def test_a_page_has_all_texts_as_text(text: str) -> None:
    for made, harmless in zip(whole_pages(text), whole_pages(HARMLESS)):
        assert made.isascii()
        assert_same_shape(made, harmless)
        assert parsed(made).title.get_text().endswith(visible(text)) or "\n" in text


def test_each_template_is_tried() -> None:
    tried = {name.partition(".")[0] for name in macros_of_all()}
    assert {path.stem for path in templating.FOLDER.glob("*.html")} == tried | {"layout", "parts", "record", "records", "human"}
