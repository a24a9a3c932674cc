"""Makes a page of a match record for a browser."""

import argparse
import functools
import itertools
import math
import re
from collections.abc import Callable, Iterable, Iterator, Sequence
from dataclasses import dataclass
from typing import TYPE_CHECKING, Any, BinaryIO

from ggp_tools.answers import Whys
from ggp_tools.holding.game import Game
from ggp_tools.kif import Expression, expressions, grouped, head_of, is_variable, spelled
from ggp_tools.printable import MOST_SHOWN, visible
from ggp_tools.records.marks import PIECES, Mark, marks_of
from ggp_tools.records.record import ACCOUNT_LINE, BEGIN, CAUSE, LONGEST_RECORD, TOO_LONG, NoRecord, numbered_lines, read_record, winner_words
from ggp_tools.streams import Ended, opened, put_bytes, status_of
from ggp_tools.templating import joined, macros, page

if TYPE_CHECKING:
    from markupsafe import Markup

ABOUT = (
    "Makes a page of a match record for a browser. The page shows the players and how the match ended, a table of all turns with replaced "
    "moves, and each state with its changes. A state is shown as a board if its terms name places, unless the page would have more than 32,768 "
    "boards. The page is one file, loads nothing, and runs only its own script. If the file is not a record, the command says why. It does not "
    "check whether the match is lawful: use `ggp_manager verify` for this."
)
STATUS = "status 0: the page was written. 1: the file is not a record. 2: usage error, or the file cannot be read, or the page cannot be written."
ONE_RECORD = "Pass one record, or make a page of each with `ggp-records pages`"
LONGEST_AXIS = 32
# A page that would have more boards lists terms instead, because a board is about a hundred times as long as its terms.
MOST_DRAWN = 32_768
# At most MOST_READ terms are read to draw a state: its own terms, those of earlier states, and those of the rules. Its boards have at most
# MOST_PLACES places and names in total. These limits keep the processor time of a drawing below about half a second. A larger state is
# listed as text.
MOST_READ, MOST_PLACES = 16_384, 4_096
# The page of a long match has parts. The states of a part have at most this many terms in total, so that drawing a part takes about as long
# as drawing the largest state. Terms with more than this many letters on average count as more terms.
MOST_OF_PART, LETTERS = 16_384, 64
# The sizes of the caches of terms, of cells, and of the opening tags of boards.
MOST_TERMS, MOST_CELLS, MOST_BOARDS = 65_536, 16_384, 64

PHASES = {
    "starting": "It is starting: not every role has its START mark.",
    "playing": "It is being played.",
    "stopping": "It has ended by the rules, but not every role has answered STOP.",
    "finished": "It ended by the rules.",
    "aborting": "It is being given up, but not every role has answered ABORT",
    "aborted": "It was given up",
}
CAUSES = {
    "asked": "an abort was asked for",
    "nolegal": "{} has no legal move",
    "nogoal": "{} does not have exactly one goal at the end",
    "toolong": "10,000 turns were played",
    "allretired": "all roles are retired",
}
ERRORS = {
    "TO": "no answer came in time",
    "CE": "the connection broke, or no complete reply came",
    "RT": "the role is retired: it was not asked",
    "IL ?": "the answer was not one expression",
    "IL": "the answer was not a legal move",
}

# Terms of a state that name the role whose turn it is.
TURN = re.compile(r"\((?:control|turn|on-turn) ([^()]*)\)")

# If a state is listed as text, the template gets these values besides the terms of the state.
LISTED = {"boards": "", "before": None, "gone": [], "is_empty": False, "drawn": [], "more": 0}

# The labels at each place of a board.
Place = tuple[int, int]
Places = dict[Place, list[str]]
# A relation and the number of its members.
Group = tuple[str, int]


# ---- reading


def record_of(file: BinaryIO) -> bytes:
    """Returns the record of a file that has one record. If `run --history` wrote a call log after the record, the call log is skipped."""
    first, second = file.readline(LONGEST_RECORD + 2), file.readline(LONGEST_RECORD + 2)
    if ACCOUNT_LINE.fullmatch(second.rstrip(b"\r\n")):
        for number, line in numbered_lines(file):
            if not ACCOUNT_LINE.fullmatch(line):
                raise NoRecord(f"line {number + 2} is not a line of the record's call log. {ONE_RECORD}")
        data = first
    elif first.startswith(BEGIN) and second.startswith(BEGIN):
        raise NoRecord(f"line 2 is another record. {ONE_RECORD}")
    else:
        data = (first + second + file.read(LONGEST_RECORD + 2))[: LONGEST_RECORD + 2]
    # Only the beginning of a record that is too long was read.
    if len(data) - data.endswith(b"\n") > LONGEST_RECORD:
        raise NoRecord(TOO_LONG)
    return data


# ---- boards


@functools.lru_cache(MOST_TERMS)
def words_of(term: str) -> list[str]:
    """If a term is a list of atoms, returns its members, otherwise an empty list."""
    is_flat = term.startswith("(") and term.endswith(")") and not re.search(r"[()]", term[1:-1])
    return term[1:-1].split(" ") if is_flat else []


def group_of(words: Sequence[str]) -> Group:
    return (words[0] if words else "", len(words))


def axis_of(values: Iterable[str]) -> list[str] | None:
    """Returns the places of an axis in order. They are numbers, each with at most one letter before it, or single letters. If the values
    have another form, returns None."""
    if all(re.fullmatch("[a-z]", value) for value in values):
        axis = [chr(number) for number in range(ord(min(values)), ord(max(values)) + 1)]
    else:
        matches = [re.fullmatch(r"([a-z]?)(0|[1-9][0-9]?)", value) for value in values]
        if not all(matches) or len({match[1] for match in matches}) > 1:
            return None
        numbers = [int(match[2]) for match in matches]
        axis = [f"{matches[0][1]}{number}" for number in range(min(numbers), max(numbers) + 1)]
    return axis if 2 <= len(axis) <= LONGEST_AXIS else None


def kind_of(axis: list[str]) -> str:
    return axis[0].rstrip("0123456789") if axis[0][-1].isdigit() else "letters"


def is_pairing(states: list[list[list[str]]]) -> bool:
    """Returns whether in every state each first argument has exactly one second argument, or each second argument has exactly one first
    argument. Such arguments are not places."""
    return any(all(len({term[side] for term in terms}) == len(terms) for terms in states) for side in (1, 2))


@dataclass
class Board:
    """Terms that name places. The keys of `forms` are the relations with their numbers of members. Each value has the index of the first of
    the two members that name the place, and the indices of the members that make up the label: the other arguments or, if there are none,
    the relation. `lean` is 0 for squares. For hexagons it is 1 or -1: each row is half a place to the right or to the left of the row below
    it."""

    across: list
    up: list
    forms: dict
    terms: Iterable[tuple[str, ...]]
    is_hex: bool

    def __post_init__(self) -> None:
        # The column and the row of each term, counted from 1, and its label.
        self.known = {words: self.place(words) for words in self.terms}
        self.places = {place[:2] for place in self.known.values()}
        self.lean = lean_of(self.places)
        if self.is_hex and not self.lean:
            self.lean, self.places = 1, self.grid()

    def grid(self) -> set[Place]:
        """Returns the places of all rows and columns."""
        return set(itertools.product(range(1, len(self.across) + 1), range(1, len(self.up) + 1)))

    def size(self, is_played: bool) -> int:
        """Returns the maximum number of places, of names of columns, and of names of rows that are drawn, in total."""
        return len(self.across) + len(self.up) + (len(self.across) * len(self.up) if is_played else len(self.places))

    def place(self, words: tuple[str, ...]) -> tuple[int, int, str]:
        at, labels = self.forms[group_of(words)]
        return self.across.index(words[at]) + 1, self.up.index(words[at + 1]) + 1, " ".join(words[place] for place in labels)

    def marks(self, named: "Named") -> dict[str, Mark]:
        """Returns the mark of each label, including the labels in the rules, so that a label looks the same in all states."""
        own = ([words[at] for at in places] for group, (_, places) in self.forms.items() for words in named.terms.get(group, ()))
        labels = {" ".join(label) for label in own if not any(map(is_variable, label))}
        return marks_of(map(visible, labels.union(label for _, _, label in self.known.values())))


def lean_of(places: set[Place]) -> int:
    """Returns the lean of a board of hexagons, or 0 for other boards. The places of such a board form a hexagon, a star or a triangle, and
    a rotation by 120 degrees does not change them."""
    count, across, up = len(places), sum(x for x, _ in places), sum(y for _, y in places)
    for lean in (1, -1) if count > 6 else ():
        around = {(count * x - across, lean * (count * y - up)) for x, y in places}
        if {(-x - y, x) for x, y in around} == around:
            return lean
    return 0


def places_of(move: str, board: Board) -> list[Place]:
    """Returns the places of a board that a move names with two consecutive arguments, in their order."""
    words, places, index = words_of(move), [], 1
    while index + 1 < len(words):
        if words[index] in board.across and words[index + 1] in board.up:
            places.append((board.across.index(words[index]) + 1, board.up.index(words[index + 1]) + 1))
            index += 2
        else:
            index += 1
    return places


def members_of(states: Iterable[list[list[str]]]) -> list[set[str]]:
    """Returns, for each member of a relation, the words that it has in these states."""
    return list(map(set, zip(*(words for state in states for words in state))))


def form_of(words_by_state: list[list[list[str]]], members: list[set[str]]) -> tuple[int, list[int]] | None:
    """Returns where the terms of one relation have the place and the label, as indices. Returns None if the terms do not name places.
    `members` has the possible words of each member."""
    # (on X Y); (cell X Y V) and (cell X Y V W); (piece V X Y)
    for at, labels in {3: [(1, [0])], 4: [(1, [3]), (2, [1])], 5: [(1, [3, 4])]}.get(len(members), []):
        if axis_of(members[at]) and axis_of(members[at + 1]):
            if members[0] & PIECES:
                # In (king white X Y) and (rook X Y), the relation is the piece, and there may be only one such piece.
                return at, sorted({0, *labels})
            is_function = is_pairing(words_by_state) if len(members) == 3 else max(map(len, words_by_state)) < 2
            return None if is_function else (at, labels)
    return None


class Named:
    """The terms of states and the moves that rules contain, possibly with variables: the terms by relation, each as a list of words, and
    the legal moves. If `is_hex` is set, boards have hexagons even if their shape does not show this."""

    def __init__(self, sentences: Iterable[Expression] = (), is_hex: bool = False) -> None:
        heads = [head for head in map(head_of, sentences) if head[0] in ("init", "next", "legal") and len(head) > 1]
        self.is_hex, self.moves = is_hex, list(dict.fromkeys(spelled(head[-1]) for head in heads if head[0] == "legal"))
        terms = dict.fromkeys(spelled(head[1]) for head in heads if head[0] != "legal")
        self.terms = grouped(filter(None, map(words_of, terms)), group_of)
        self.ground = {group: [words for words in terms if not any(map(is_variable, words))] for group, terms in self.terms.items()}
        # The possible words of each member, by relation.
        self.members = {group: members_of([terms]) for group, terms in self.ground.items() if terms}

    @functools.cached_property
    def boards(self) -> list[Board]:
        """Returns the boards whose places are known without a state, because moves name them. A board whose rows are letters is left out, because
        (on a b) describes a pile of blocks."""
        boards = boards_of_terms({group: {0: terms} for group, terms in self.ground.items() if terms}, Named((), self.is_hex))
        return [board for board in boards if kind_of(board.up) != "letters" and any(places_of(move, board) for move in self.moves)]


@functools.lru_cache(16)
def named_in(rules: bytes, is_hex: bool) -> Named:
    """Returns the terms and moves that a text of rules contains."""
    return Named(expressions(rules.decode("latin-1")), is_hex)


def boards_of(states: Iterable[list[str]], named: Named = Named()) -> list[Board]:
    """Returns the boards of a match: one for each relation such as (cell X Y V), and one for all other relations with the same kinds of places. A
    board also has the places that the rules name, and may be empty."""
    terms: dict[Group, dict[int, list[list[str]]]] = {}
    for at, state in enumerate(states):
        for words in filter(None, map(words_of, state)):
            terms.setdefault(group_of(words), {}).setdefault(at, []).append(words)
    return boards_of_terms(terms, named) or named.boards


def boards_of_terms(terms: dict[Group, dict[int, list[list[str]]]], named: Named) -> list[Board]:
    """Returns the boards for terms that are grouped by relation and state. The boards include the places that the rules name."""
    boards, result = {}, []
    for group, by_state in terms.items():
        states, seen = list(by_state.values()), members_of(by_state.values())
        words = [word | more for word, more in zip(seen, named.members.get(group, seen))]
        # Some words in rules, for example those for places off the board, are not places.
        further = named.ground.get(group, ()) if form_of(states, words) else ()
        words = words if further else seen
        if form := form_of(states, words):
            kinds = tuple(kind_of(axis_of(place)) for place in words[form[0] : form[0] + 2])
            forms, known = boards.setdefault(group if form[0] == 1 and group[1] > 3 else kinds, ({}, set()))
            forms[group] = form
            known.update(map(tuple, itertools.chain(*states, further)))
    for forms, known in boards.values():
        across, up = (axis_of({words[forms[group_of(words)][0] + side] for words in known}) for side in (0, 1))
        result += [Board(across, up, forms, known, named.is_hex)] if across and up else []
    return result


# ---- the page


def why_of(error: str) -> str:
    return ERRORS["IL"] if error.startswith("IL ") and error != "IL ?" else ERRORS.get(error, "an unknown error")


def ending(record: dict) -> str:
    """Describes how the match ended."""
    sentence = PHASES[record["phase"]]
    cause = CAUSE.fullmatch(record["cause"] or "")
    if cause:
        role = f"role {cause[3]} ({record['roles'][int(cause[3])]})" if cause[3] else ""
        sentence = f"{sentence.rstrip('.')}: {CAUSES[cause[1] or cause[2]].format(role)}."
    return sentence if sentence.endswith(".") else f"{sentence}."


def kinds_of_errors(record: dict) -> list[tuple[str, str]]:
    """Returns the meaning of each kind of error in a record, with its form."""
    kinds = {why_of(error): error for turn in record["errors"] for error in turn if error}
    return sorted((why, "IL" if why == ERRORS["IL"] else error) for why, error in kinds.items())


def board_places(board: Board, state: list[str]) -> Places:
    """Returns the labels at each place of a board."""
    places = {}
    for term in state:
        if entry := board.known.get(tuple(words_of(term))):
            places.setdefault(entry[:2], []).append(entry[2])
    return places


def ground_of(board: Board, places: Places) -> str | None:
    """Returns the label of more than half of all places, which is that of an empty cell. Returns None if there is no such label, or if a
    place has no label."""
    labels = [labels[0] for labels in places.values()]
    if len(labels) < len(board.across) * len(board.up):
        return None
    return next((label for label in sorted(set(labels)) if 2 * labels.count(label) > len(labels)), None)


@functools.lru_cache(MOST_CELLS)
def cell(place: Place, name: str, labels: tuple[str, ...], marks: tuple[Mark, ...], kinds: tuple[str, ...], is_played: bool) -> "Markup":
    """Returns a cell as HTML. If a person plays, the cell is a button. If its marks differ from its labels, the labels are its title. Cells
    are cached, because most of them are the same in many states."""
    is_named = is_played or labels and (len(labels) > 1 or marks[0].text != labels[0])
    words = f"{name}: {', '.join(labels) or 'nothing'}" if is_named else ""
    kinds = " ".join([*kinds, *(marks[0].kinds() if len(marks) == 1 else [])])
    return macros("boards").cell(*place, kinds, words, "button" if is_played else "i", marks)


@functools.lru_cache(MOST_BOARDS)
def board_opening(across: tuple[str, ...], up: tuple[str, ...], lean: int, places: frozenset[Place]) -> "Markup":
    """Returns the opening tags of a board. Boards of hexagons also need the places."""
    if not lean:
        return macros("boards").open_board(across, up)
    tops = {x: max(y for column, y in places if column == x) + 1 for x, _ in places}
    halves = [2 * x + lean * y for x, y in places | set(tops.items())]
    return macros("boards").open_hexagons(across, up, lean, min(halves) - 2, max(halves) - min(halves) + 2, tops)


def board_page(
    board: Board, places: Places, before: Places | None, ground: str | None, marks: dict[str, Mark], is_played: bool = False
) -> "Markup":
    """Returns a board as HTML, with changed places marked as new. If a person plays, the board has a button for each place."""
    cells, shown = [], board.places if board.lean else board.grid() if is_played else ()
    for at in sorted({*places, *(before or {}), *shown}):
        own = places.get(at, [])
        labels, is_new = tuple(map(visible, own)), before is not None and before.get(at, []) != own
        name, kinds = f"{board.across[at[0] - 1]} {board.up[at[1] - 1]}", ("new",) * is_new + ("ground",) * (own == [ground])
        cells.append(cell(at, name, labels, tuple(marks[label] for label in labels), kinds, is_played))
    opening = board_opening(tuple(board.across), tuple(board.up), board.lean, frozenset(board.places if board.lean else ()))
    return joined([opening, *cells, "</div></div>"])


def states_of_page(
    states: list[list[str]], roles: Sequence[str], named: Named = Named(), since: int = 0, most: float = math.inf, is_played: bool = False
) -> Iterator[dict[str, Any]]:
    """Yields each state, beginning with number `since`: its boards, unless they have more than `most` places in total; the role whose turn
    it is, if the state names it; and the terms that no board shows: those of this state, those of the previous state, and those that were
    removed."""
    boards = boards_of(states, named)
    is_drawn = len(boards) * (len(states) - since) <= MOST_DRAWN and sum(board.size(is_played) for board in boards) <= most
    boards = boards if is_drawn else []
    on_boards = {form for board in boards for form in board.forms}
    marks, places, known, ground = [board.marks(named) for board in boards], None, None, None
    for number, state in enumerate(states):
        before = places or [None] * len(boards)
        places = [board_places(board, state) for board in boards]
        ground = ground or [ground_of(board, own) for board, own in zip(boards, places)]
        mover = mover_of(state, roles)
        # If a term says only whose turn it is, the heading of the state replaces it.
        shown_above = [] if mover is None else [term for _, term in named_roles(state, roles) if len(words_of(term)) == 2]
        terms = [term for term in state if group_of(words_of(term)) not in on_boards and term not in shown_above]
        known, known_before = set(terms), known
        if number >= since:
            drawn = joined([board_page(*parts, is_played) for parts in zip(boards, places, before, ground, marks)])
            gone = sorted((known_before or set()) - known)
            more = {"gone": gone, "is_empty": not state, "mover": mover, "drawn": boards, "more": 0}
            yield {"boards": drawn, "terms": terms, "before": known_before, **more}


def quick(named: Named) -> Named:
    """Returns the names in the rules. If there are too many names to read, returns no names, but keeps the shape of the boards."""
    return Named(is_hex=named.is_hex) if sum(map(len, named.terms.values())) > MOST_READ else named


def last_state(states: list[list[str]], roles: Sequence[str], named: Named, is_played: bool = False) -> dict[str, Any] | None:
    """Returns the drawing of the last state, if there is one. The drawing uses the terms of as many earlier states as the limit allows."""
    count = sum(size <= MOST_READ for size in itertools.accumulate(map(len, reversed(states))))
    if states and not count:
        return LISTED | {"terms": states[-1]}
    return next(states_of_page(states[len(states) - count :], roles, quick(named), count - 1, MOST_PLACES, is_played), None)


def named_roles(state: list[str], roles: Sequence[str]) -> list[tuple[str, str]]:
    """Returns the roles whose turn it is according to a state. Each comes with the term that says so, such as (control ROLE)."""
    return [(word, term) for term in state if (match := TURN.fullmatch(term)) for word in match[1].split() if word in roles]


def mover_of(state: list[str], roles: Sequence[str]) -> int | None:
    """Returns the role whose turn it is, or None unless the state names exactly one. If it names one, each other role has only one legal
    move."""
    named = {role for role, _ in named_roles(state, roles)}
    return roles.index(named.pop()) if len(named) == 1 else None


def turn_of_page(moves: Sequence[str], errors: Sequence[str], mover: int | None, why: Callable[[int, str], str]) -> list[dict[str, object]]:
    """Returns the moves of a turn by role. Replaced moves have the reason."""
    rows = []
    for role, (move, error) in enumerate(zip(moves, errors)):
        # A role whose turn it is not has one legal move, a single word such as `noop`.
        is_idle = mover not in (None, role) and not error and "(" not in move
        rows.append({"text": move, "error": error, "why": why(role, error) if error else "", "is_idle": is_idle})
    return rows


def weight_of(state: list[str]) -> int:
    """Returns how many terms of a state are drawn. A long term counts as several."""
    if sum(map(len, state)) <= LETTERS * len(state):
        return len(state)
    return max(len(state), sum(min(len(term), MOST_SHOWN) for term in state) // LETTERS)


def states_of_part(states: list[list[str]], part: range, roles: Sequence[str], named: Named) -> list[dict[str, Any]]:
    """Returns the states of a part of the page of a long match. If a state is too large for a part, only the beginning of its list of terms
    is shown."""
    first, before = states[part.start], max(0, part.start - 1)
    if (weight := weight_of(first)) > MOST_OF_PART:
        shown = first[: len(first) * MOST_OF_PART // weight]
        return [LISTED | {"terms": shown, "more": len(first) - len(shown), "mover": mover_of(first, roles)}]
    if weight_of(states[before]) > MOST_OF_PART:
        before = part.start
    return list(states_of_page(states[before : part.stop], roles, quick(named), part.start - before, MOST_PLACES))


def parts_of(states: list[list[str]]) -> list[range]:
    """Returns the parts of a long match: for each part, the numbers of its states. A part has at most MOST_OF_PART terms, or only one state."""
    starts, size = [0], 0
    for number, own in enumerate(map(weight_of, states)):
        size += own
        if size > MOST_OF_PART and number > starts[-1]:
            starts.append(number)
            size = own
    return [range(start, end) for start, end in zip(starts, [*starts[1:], len(states)])]


@dataclass(frozen=True)
class Frame:
    """What the page of a match shows besides the record: HTML for its head, the names in the rules, the winner if the goals do not
    determine one, and the number of the part to show, or None for all parts."""

    head: "Markup | str" = ""
    named: Named = Named()
    winner: str | None = None
    part: int | None = None


def page_of(
    record: dict, game: Callable[[], Game] | None = None, answers: dict[tuple[int, int], str] | None = None, frame: Frame = Frame()
) -> bytes:
    """Returns the page in ASCII. If the game is given, the page also explains replaced moves, with `answers` by role and turn, counted from
    0."""
    all_states, moves, errors, whys = record["states"], record["moves"], record["errors"], Whys(record, game, answers or {})
    parts = [range(len(all_states))] if frame.part is None else parts_of(all_states)
    part, roles = parts[frame.part or 0], record["roles"]
    if frame.part is None:
        states = list(states_of_page(all_states, roles, frame.named))
    else:
        states = states_of_part(all_states, part, roles, frame.named)
    # If the record is too long, only its first states are known.
    last = len(moves) if part is parts[-1] else part.stop - 1
    turns = []
    for turn in range(max(0, part.start - 1), last):
        mover = mover_of(all_states[turn], record["roles"]) if turn < len(all_states) else None
        shown = turn_of_page(moves[turn], errors[turn], mover, lambda role, error: why_of(error) + whys.more(role, turn, error))
        turns.append((turn + 1, shown))
    return page(
        "record",
        head=frame.head,
        record=record,
        winner=winner_words(record["players"], record["goalValues"]) if frame.winner is None else frame.winner,
        ending=ending(record),
        roles=list(zip(record["roles"], record["players"])),
        counts=[sum(bool(turn[role]) for turn in errors) for role in range(len(record["roles"]))],
        states=list(zip(part, states)),
        turns=turns,
        parts=[(part.start, part.stop - 1) for part in parts] if len(parts) > 1 else [],
        has_boards=any(state["boards"] for state in states),
        errors=kinds_of_errors(record),
    )


def perform(name: str) -> int:
    """Writes the page of a record."""
    try:
        with opened(name) as file:
            content = page_of(read_record(record_of(file)))
    except NoRecord as why:
        raise Ended(f"no record: {why}", 1) from None
    put_bytes(content)
    return 0


def main() -> int:
    reader = argparse.ArgumentParser("ggp-show-record", usage="ggp-show-record [RECORD] > page.html", description=ABOUT, epilog=STATUS)
    reader.add_argument("record", metavar="RECORD", nargs="?", default="-", help="a file with one record, as printed by `run` and `desk`, also with its call log (default: standard input, also as `-`)")
    return status_of("ggp-show-record", lambda: perform(reader.parse_args().record), 2)
