"""The pages of ggp-show-record. They show each turn, state, move and mark of the record, and show all text as text. A browser loads
nothing, and runs only the page's own script. The command refuses other files, and prints the reason."""

import copy
import io
import json
import pathlib
import re
import subprocess

import pytest
from ggp_tools.printable import visible
from ggp_tools.records import show
from ggp_tools.records.record import NoRecord
from browser import Browser
from html_pages import links_of, parsed
from support import GAMES, TOP, program, raised

# A match with each kind of error, which ends because both roles are retired.
SCRIPT = """strict m 0 10 5 2 ann bob
submit m 0 0 READY
submit m 1 0 READY
submit m 0 1 (take 1)
miss m 1 1 silent
submit m 0 2 ?
miss m 1 2 broken
submit m 0 3 noop
"""
ERRORS = [["", "TO"], ["IL ?", "CE"], ["IL noop", "RT"]]
HOSTILE = ["<script>alert(1)</script>", "\"'><img src=x onerror=alert(1)>", "</script></table><b>", "&lt;&#65;", "<!--", "\\", "\u202e\x00\x7f\ud800"]
# States, each with the number of boards that are drawn for it.
FORMS = [
    (["(cell 1 1 x)", "(cell 2 3 b)"], 1),
    (["(cell a 1 white rook)", "(cell c 2 black king)"], 1),
    (["(cell x1 y1 b)", "(cell x2 y2 b)", "(shade x1 y1 dark)", "(shade x2 y2 light)"], 2),
    (["(piece white 1 1)", "(piece black 2 2)"], 1),
    (["(at red 1 1)", "(at blue 2 2)", "(wall 1 1)", "(wall 1 2)", "(wall 2 2)"], 1),
    (["(peg 1 1)", "(peg 1 2)", "(peg 2 2)"], 1),
    # Only one number or letter, so these are not places.
    (["(heap 1 3)", "(heap 2 5)"], 0),
    (["(on 1 a)", "(on 2 a)"], 0),
    (["(step 0 1 1)"], 0),
    # No number after one letter, no letter, or too many.
    (["(score ann 10)", "(score bob 20)"], 0),
    (["(cell a1 1 x)", "(cell b2 2 x)"], 0),
    (["(cell 1 1 x)", "(cell 99 2 x)"], 0),
    (["(cell 1 1 (piece x))", "(cell 2 2 (piece o))"], 0),
    (["(", ")", "()", "( )", "(cell  1 x)", "cell 1 1 x"], 0),
]
# The glyphs on a board of tic-tac-toe.
SHOWN = {"x": "\u2715", "o": "\u25ef", "b": "\u00b7"}
TAGS = {"html", "head", "meta", "title", "style", "body", "h1", "p", "span", "table", "tr", "th", "td", "div", "main", "nav", "button"}
TAGS |= {"section", "h2", "ul", "li", "b", "i", "br", "a", "code", "script", "strong", "label", "input"}
ATTRIBUTES = {"lang", "charset", "name", "http-equiv", "content", "class", "id", "style", "title", "tabindex", "href", "data-key", "type"}


def made(record):
    """Returns the page of a record or of these bytes, or the error."""
    data = record if isinstance(record, bytes) else json.dumps(record).encode()
    try:
        return show.page_of(show.read_record(data)), ""
    except show.NoRecord as why:
        return b"", str(why)


def rows_of_text(cells: list, count: int) -> list[list[str]]:
    """Splits the texts of cells into rows."""
    texts = [cell.text for cell in cells]
    return [texts[at : at + count] for at in range(0, len(texts), count)]


def texts_of(record):
    """Returns the texts that the page must show, by place."""
    moves = [visible(text) for turn in record["moves"] for text in turn]
    errors = [visible(text) for turn in record["errors"] for text in turn if text]
    return moves, errors, [visible(role) for role in record["roles"]], [visible(player) for player in record["players"]]


def parts_of(record: dict) -> tuple[dict, dict]:
    """Returns the actual and the expected contents of a record's page."""
    page, error = made(record)
    assert not error and page.isascii()
    shown = parsed(page)
    moves, errors, roles, players = texts_of(record)
    players_rows = rows_of_text(shown.select("table.players td"), 7)
    # Each term is either on a board or in the list, but not in both.
    on_boards = sum(bool(cell.text) or cell.has_attr("title") for cell in shown("i")) + len(shown("br"))
    found = {
        "turns": len(shown.select("tr.turn")),
        "moves": [next(cell.strings) for cell in shown.select("tr.turn td + td")],
        "errors": [why.text for why in shown.select("span.why")],
        "substituted moves": len(shown.select("td.substituted")),
        "roles": [row[1] for row in players_rows],
        "players": [row[2] for row in players_rows],
        "goals, replaced moves and marks": [row[3:] for row in players_rows],
        "states": [state["id"] for state in shown.select("section.state")],
        "terms": on_boards + len(shown.select("li:not(.gone)")),
        "titles": [title.text for title in shown.select("section.state h2")],
        "scripts": (len(shown("script")), page.count(b"<script")),
        "numbers of turns": [link.text for link in shown("a")],
    }
    # The heading of a state says whose turn it is. The heading of the last state says who won.
    turns = [[role for role in record["roles"] if {f"(control {role})", f"(turn {role})"} & set(state)] for state in record["states"]]
    said = [f": {role[0]} to move" if role else "" for role in turns]
    best = [name for name, goal in zip(players, record["goalValues"]) if goal == max(record["goalValues"]) and len(players) > 1]
    said[-1] = f": {' and '.join(best)} {'won' if len(best) == 1 else 'drew'}." if best else said[-1]
    assert {element.name for element in shown.find_all()} <= TAGS
    assert all(element.attrs.keys() <= ATTRIBUTES for element in shown.find_all())
    assert all(link.startswith("#turn=") for link in links_of(shown))
    wanted = {
        "turns": len(record["moves"]),
        "moves": moves,
        "errors": errors,
        "substituted moves": len(errors),
        "roles": roles,
        "players": players,
        "goals, replaced moves and marks": [
            [str(goal), str(sum(turn[at] != "" for turn in record["errors"])), *("none" if marks[at] is None else marks[at] or "answered" for marks in (record["startMarks"], record["endMarks"]))]
            for at, goal in enumerate(record["goalValues"] or ["none"] * len(players))
        ],
        "states": [f"turn={at}" for at in range(len(record["states"]))],
        "terms": sum(map(len, record["states"])) - sum(map(len, turns)),
        "titles": [f"{f'After turn {at}' if at else 'Before turn 1'}{words}" for at, words in enumerate(said)],
        "scripts": (1, 1),
        "numbers of turns": [str(turn + 1) for turn in range(len(record["moves"]))],
    }
    return found, wanted


def hostile(record):
    """Returns the record with hostile texts, which pages must show as text."""
    other = copy.deepcopy(record)
    for at, text in enumerate(HOSTILE):
        turn, role = at % len(other["moves"]), at % len(other["roles"])
        other["moves"][turn][role] = other["errors"][turn][role] = text
        other["states"][turn].append(text)
    other["players"], other["roles"] = HOSTILE[: len(other["players"])], HOSTILE[1 : len(other["roles"]) + 1]
    other["startMarks"][0], other["endMarks"][0], other["matchId"] = HOSTILE[0], HOSTILE[1], "".join(HOSTILE)
    return other


def refusals(record):
    """Returns texts that are not records, each with words of the error message."""
    without = {key: {other: value for other, value in record.items() if other != key} for key in record}
    return [
        (b"", "not JSON"),
        (b"\xff", "not JSON"),
        (b"[" * 100_000, "not JSON"),
        (b"{} {}", "not JSON"),
        (b"[]", "not an object"),
        *((rest, f"expected in {key}: ") for key, rest in without.items()),
        *(({**record, key: 1.5}, f"expected in {key}: ") for key in record),
        ({**record, "players": ["ann"]}, 'expected in players: for each role a name'),
        ({**record, "errors": record["errors"][1:]}, "expected in errors: "),
        ({**record, "errors": [["", "", ""], *record["errors"][1:]]}, 'found as member 1 of 2: ["", "", ""]'),
        ({**record, "states": record["states"][1:]}, "found 2 members, with 2 turns in moves: "),
        ({**record, "goalValues": [100]}, "found: [100]"),
        ({**record, "phase": "paused"}, 'found: "paused"'),
        ({**record, "cause": "nolegal 2"}, 'found: "nolegal 2"'),
        ({**record, "version": 3}, "expected in version: 1 or 2; found: 3"),
        ({**record, "version": 2}, "expected in strikes: "),
    ]


def example(name: str) -> dict:
    return json.loads((GAMES / f"{name}.out").read_text().splitlines()[-1])


def refereed() -> dict:
    """Returns the program's record of a match whose roles are retired."""
    said = subprocess.run([program(), "desk", "--countdown", "9"], input=SCRIPT, stdout=subprocess.PIPE, text=True, check=True).stdout
    return json.loads(said.splitlines()[-1])


OLDEST = {key: value for key, value in example("countdown").items() if key not in ("strikes", "version")}


@pytest.mark.parametrize("name", sorted(path.stem for path in GAMES.glob("*.out")))
def test_an_example_is_shown_as_it_is(name: str) -> None:
    found, wanted = parts_of(example(name))
    assert found == wanted


def test_a_match_with_each_kind_of_error_is_shown() -> None:
    record = refereed()
    assert record["errors"] == ERRORS
    found, wanted = parts_of(record)
    assert found == wanted


@pytest.mark.parametrize("record", [OLDEST, {**OLDEST, "strikes": 2, "version": 2}, hostile(example("tictactoe"))], ids=["version 1", "version 2", "hostile"])
def test_older_and_hostile_records_are_shown(record: dict) -> None:
    found, wanted = parts_of(record)
    assert found == wanted


def test_the_board_of_tictactoe_and_what_each_turn_changed() -> None:
    record = example("tictactoe")
    shown = parsed(made(record)[0])
    assert [cell.text for cell in shown("i")] == [SHOWN[term[-2]] for state in record["states"] for term in state if term.startswith("(cell ")]
    assert [len(shown.select(kind)) for kind in ("i.new", "li.new", "li.gone", ".idle")] == [len(record["moves"]), 0, 0, len(record["moves"])]


def test_a_page_in_a_browser(tmp_path: pathlib.Path) -> None:
    record = example("tictactoe")
    (tmp_path / "page.html").write_bytes(made(record)[0])
    address, title = f"file://{tmp_path}/page.html", "document.querySelector('.state.shown h2').innerText"
    with Browser() as browser:
        page = browser.page(address)
        assert page.value(title) == f"After turn 5: {record['players'][0]} won."
        page.go(f"{address}#turn=2")
        page.until(f"{title} === 'After turn 2: xplayer to move'")
        page.click("document.querySelector('[data-key=ArrowRight]')")
        assert page.value("location.hash") == "#turn=3"
        forced = "document.querySelector('.turn .idle').checkVisibility()"
        assert not page.value(forced)
        page.click("document.querySelector('.idle-too input')")
        assert page.value(forced)
        page.click("document.querySelector('[data-key=p]')")
        page.until("location.hash === '#turn=5'")


def placed(places: list[tuple[int, int]]) -> list[str]:
    return [f"(cell {x} {y} b)" for x, y in places]


SQUARE = [(x, y) for x in range(1, 6) for y in range(1, 6)]


@pytest.mark.parametrize(
    ("places", "is_hex", "lean"),
    [
        (SQUARE, False, 0),
        (SQUARE, True, 1),
        ([(x, y) for x, y in SQUARE if 4 <= x + y <= 8], False, 1),
        ([(x, y) for x, y in SQUARE if abs(x - y) <= 2], False, -1),
        ([(x, y) for x, y in SQUARE if y <= x], False, -1),
        ([(x, y) for x, y in SQUARE if x + y > 3], False, 0),
    ],
    ids=["square", "rhombus", "hexagon", "mirrored hexagon", "triangle", "square without a corner"],
)
def test_boards_of_hexagons(places: list[tuple[int, int]], is_hex: bool, lean: int) -> None:
    named = show.named_in(" ".join(f"(init {term})" for term in placed(places)).encode(), is_hex)
    first = placed(places[: len(places) // 2])
    (board,) = show.boards_of([first], named)
    assert (board.lean, len(board.places)) == (lean, len(places))
    page = parsed(show.page_of({**example("countdown"), "moves": [], "errors": [], "states": [first]}, frame=show.Frame(named=named)))
    cells = [tuple(map(int, re.findall("[0-9]+", cell["style"]))) for cell in page.select(".hex i")]
    assert cells == (sorted(places) if lean else [])
    for shape in page.select(".hex"):
        ends = [2 * x + lean * y for x, y in (map(int, re.findall("[0-9]+", part["style"])) for part in shape.select("i, b:not(.row)"))]
        assert f"--shift:{min(ends) - 2};--halves:{max(ends) - min(ends) + 2}" in shape["style"]


@pytest.mark.parametrize(("state", "count"), FORMS)
def test_which_terms_are_drawn_as_boards(state: list[str], count: int) -> None:
    assert len(show.boards_of([state])) == count


@pytest.mark.parametrize(("record", "words"), refusals(OLDEST))
def test_what_is_not_a_record_is_refused(record: dict | bytes, words: str) -> None:
    page, error = made(record)
    assert not page and words in error


@pytest.mark.parametrize(("text", "result"), [(json.dumps(OLDEST).encode(), (0, True, 0)), (b"{}", (1, False, 1))])
def test_the_command_prints_a_page_or_one_line(text: bytes, result: tuple[int, bool, int]) -> None:
    ran = subprocess.run([TOP / "python/ggp-show-record"], input=text, capture_output=True)
    assert (ran.returncode, bool(ran.stdout), ran.stderr.count(b"\n")) == result


def test_whose_turn_a_state_says_it_is() -> None:
    states = [], ["(control blue)"], ["(turn red)", "(control red)"], ["(control red)", "(control blue)"], ["(control red blue)"], ["(control eve)"]
    assert [show.mover_of(state, ["red", "blue"]) for state in states] == [None, 1, 0, None, None, None]


@pytest.mark.parametrize("phase, cause, said", [
    ("finished", None, "It ended by the rules."), ("aborted", "nolegal 1", "It was given up: role 1 (blue) has no legal move."),
    ("aborting", "asked", "It is being given up, but not every role has answered ABORT: an abort was asked for."),
])
def test_how_a_match_ended(phase: str, cause: str | None, said: str) -> None:
    assert show.ending({"phase": phase, "cause": cause, "roles": ["red", "blue"], "players": ["ann", "bob"]}) == said


def test_which_moves_are_those_of_a_role_that_waits() -> None:
    for mover, error, wanted in ((1, "", [True, False]), (0, "", [False, True]), (None, "", [False, False]), (1, "TO", [False, False])):
        moves = ["noop", "(mark 1)" if mover != 0 else "noop"]
        assert [move["is_idle"] for move in show.turn_of_page(moves, [error, ""], mover, lambda *_: "")] == wanted, (mover, error)


def test_what_was_in_the_state_before_is_gone() -> None:
    states = [["(step 1)", "(x)"], ["(step 2)", "(x)"], []]
    assert [(state["terms"], state["gone"]) for state in show.states_of_page(states, [])] == [(states[0], []), (states[1], ["(step 1)"]), ([], ["(step 2)", "(x)"])]
    assert [state["gone"] for state in show.states_of_part(states, range(1, 3), [], show.Named())] == [["(step 1)"], ["(step 2)", "(x)"]]


def test_the_ground_of_a_board_is_on_more_than_half_of_all_places() -> None:
    state = ["(cell 1 1 b)", "(cell 1 2 b)", "(cell 2 1 b)", "(cell 2 2 x)"]
    (board,) = show.boards_of([state])
    assert [show.ground_of(board, show.board_places(board, own)) for own in (state, ["(cell 1 1 x)", *state[1:]], state[:3])] == ["b", None, None]
    # All states have the ground of the first one.
    swapped = [term.translate(str.maketrans("xb", "bx")) for term in state]
    assert [len(parsed(shown["boards"]).select(".ground")) for shown in show.states_of_page([state, swapped], [])] == [3, 1]


@pytest.mark.parametrize(("move", "count"), [("noop", 0), ("(mark 1 2)", 1)])
def test_a_board_that_no_state_shows_has_places_that_moves_name(move: str, count: int) -> None:
    rules = f"(init (cell 1 1 b)) (next (cell 2 2 b)) (legal r {move})"
    assert len(show.boards_of([[]], show.named_in(rules.encode(), False))) == count


def test_if_rules_have_too_many_names_boards_keep_their_shape(monkeypatch: pytest.MonkeyPatch) -> None:
    named = show.named_in(b"(init (cell 1 1 b))", True)
    for most in (1, 0):
        monkeypatch.setattr(show, "MOST_READ", most)
        found = show.quick(named)
        assert (len(found.terms), found.is_hex) == (most, True)


def test_an_axis_has_2_to_32_places() -> None:
    assert [bool(show.axis_of([str(place) for place in range(1, most + 1)])) for most in (1, 2, 32, 33)] == [False, True, True, False]


def test_a_file_has_one_record_and_may_have_its_call_log(monkeypatch):
    first, row = b'{"cause":%s}\n' % b"null".rjust(40), b"0\topen m 0 1 1 a b\topened\n"
    monkeypatch.setattr(show, "LONGEST_RECORD", len(first) - 1)
    for data in (first, first[:-1], b"{\n}\n"):
        assert show.record_of(io.BytesIO(data)) == data
    assert show.record_of(io.BytesIO(first + row * 3)) == first
    for data, why in (
        (first + row * 2 + b"x\n", f"line 4 is not a line of the record's call log. {show.ONE_RECORD}"), (first * 2, f"line 2 is another record. {show.ONE_RECORD}"),
        (b" " + first, show.TOO_LONG), (b" " + first + row, show.TOO_LONG), (b"{\n" + b"x" * len(first), show.TOO_LONG),
    ):
        assert str(raised(NoRecord, show.record_of, io.BytesIO(data))) == why
