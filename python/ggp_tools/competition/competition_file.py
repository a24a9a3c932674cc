"""Reads competition.toml: the games, the players and the form of the competition. Reports each mistake with its line and key."""

import functools
import re
from collections.abc import Callable, Iterable, Mapping, Sequence
from dataclasses import dataclass, field, fields
from typing import Any

from ggp_tools.competition.toml_lines import Path, TomlFault, read_toml
from ggp_tools.printable import counted, shown
from ggp_tools.records.lengths import MOST_TURNS

NAME = re.compile(r"[A-Za-z0-9][A-Za-z0-9_.-]{0,39}")
FIRST = ", beginning with a letter or a digit"
PLAYER_NAME = re.compile(r"[A-Za-z0-9_.-]{1,64}")
ADDRESS = re.compile(r"(\[[0-9A-Fa-f:.]+(?:%[A-Za-z0-9_.-]+)?\]|[A-Za-z0-9_.-]+):([0-9]{1,5})")
MARK = b"\xef\xbb\xbf"
CONTROL = re.compile(r"[\x00-\x1f\x7f-\x9f]")
# The maximum number of characters that a message quotes of a key or a value, and the maximum number of mistakes that are reported for a
# file.
MOST_SHOWN, MOST_MISTAKES = 200, 100
# The maximum size of the file.
MOST_OF_COMPETITION = 4 << 20
# The maximum number of matches at a time, for a player and for a launcher.
MOST_AT_A_TIME = 1_024
MOST_SECONDS, MOST_STRIKES, MOST_PLAYERS, MOST_GAMES, MOST_ROUNDS, MOST_PORT = 86_400, 255, 1_000, 1_000, 1_000, 65_535
# When a player with a command is restarted: when it is dead, for each match, or never.
RESTARTS = WHEN_DEAD, EACH_MATCH, NEVER = "when_dead", "each_match", "never"
PORT = "{port}"
RUNS_ELSEWHERE = "a program that runs its arguments on another machine"
MEMORY = re.compile("[1-9][0-9]{0,5}[KMGT]")
MOST_PROCESSORS, MOST_START_SECONDS, MOST_RATING = 4_096, 3_600, 10_000
# How many seconds a job may wait until its launcher runs it, for example in a queue: the default, and the maximum.
QUEUE_SECONDS, MOST_QUEUE_SECONDS = 3_600, 604_800
# The time limit for grounding a description, in seconds: the default, and the maximum.
INSTANTIATING, MOST_INSTANTIATING = 60, 1_000_000
# The forms that plan each round from the results of the previous one.
ROUND_KINDS = SWISS, KNOCKOUT = "swiss", "knockout"
# For each kind, its keys other than `kind`.
KINDS = {"round_robin": ("rounds",), "gauntlet": ("rounds", "one"), "schedule": ("lines",), SWISS: ("rounds", "final"), KNOCKOUT: ()}
ABSENT = ("leave", "play")
# Whether the finished matches of a withdrawn player count.
WITHDRAWN_RESULTS = KEEP, VOID = "keep", "void"
REASON = re.compile(r"(?! )[\x20-\x7e]{1,200}(?<! )")
# How the ids of the matches are made.
IDS = COUNTED_IDS, RANDOM_IDS = "counted", "random"
# How the standings are ordered.
ORDERS = BY_GOALS, BY_POINTS = "goals", "points"
# What START contains: the rules that the referee plays, or the description that they were made from.
PLAYER_RULES = ("ground", "variables")
# How pages draw the boards of a game: by the shape of the places, or with hexagons.
BOARDS = "shape", "hex"
# Renamed keys: the old name, then the new one.
RENAMED = {"told": "player_rules", "hosts": "launcher", "seconds": "instantiate"}


@dataclass(frozen=True)
class Mistake:
    """A mistake in the file, with its line and key."""

    line: int
    key: str
    words: str


class Mistaken(Exception):
    """All mistakes of a file."""

    def __init__(self, mistakes: list[Mistake]) -> None:
        self.mistakes = mistakes


def mistake_lines(path: object, mistakes: Sequence[Mistake]) -> str:
    """Returns a line for each of the first mistakes of a file, and a line that says how many more there are."""
    lines = [f"{path}:{mistake.line}: {mistake.key + ': ' if mistake.key else ''}{mistake.words}" for mistake in mistakes[:MOST_MISTAKES]]
    more = [f"{path}: {counted(len(mistakes) - MOST_MISTAKES, 'more mistake')}"] if len(mistakes) > MOST_MISTAKES else []
    return "\n".join([*lines, *more])


@dataclass(frozen=True)
class Text:
    """A quoted string, with its line in the file."""

    text: str
    line: int


def spelled(value: object) -> str:
    """Formats a value of the file for messages."""
    if isinstance(value, dict | list):
        return "a table" if isinstance(value, dict) else "an array"
    if isinstance(value, bool):
        return str(value).lower()
    try:
        return shown(repr(value), MOST_SHOWN)
    except ValueError:
        # Python does not convert numbers of more than 4,300 digits.
        return "a number with very many digits"


def is_address(text: str) -> bool:
    """Returns whether a text is HOST:PORT."""
    match = ADDRESS.fullmatch(text)
    return bool(match) and 1 <= int(match[2]) <= MOST_PORT


class Section:
    """A table whose keys are read one by one. Collects mistakes with their lines and keys."""

    def __init__(self, table: dict, path: Path, lines: dict[Path, int], mistakes: list[Mistake]) -> None:
        self.table, self.path, self.lines, self.mistakes = table, path, lines, mistakes
        self.prefix = "".join(f"{name}." for name in path if isinstance(name, str))
        self.first = lines.get(path, 1)

    def line(self, key: str, *members: int) -> int:
        """Returns the line of the key or of a member of its array. If the key is missing, returns the line of the table."""
        own = self.lines.get((*self.path, key), self.first)
        return self.lines.get((*self.path, key, *members), own)

    def mistake(self, key: str, words: str, line: int | None = None) -> None:
        self.mistakes.append(Mistake(line or self.line(key), shown(f"{self.prefix}{key}", MOST_SHOWN), words))

    def expected(self, key: str, what: str, found: object, line: int | None = None) -> None:
        self.mistake(key, f"expected {what}, found {spelled(found)}", line)

    def read(self, kind: type, **given: object) -> Any:
        """Returns an object of the class `kind`. `given` contains the values of some fields. The other fields are read from the keys of this
        table."""
        return kind(**{of.name: of.metadata["read"](self, of.name) for of in fields(kind) if of.name not in given and "read" in of.metadata}, **given)

    def part(self, key: str, kind: type, default: object = None) -> Any:
        """Returns the table `key` within this table, as an object of the class `kind`. If the table is missing, returns the default."""
        if key not in self.table:
            return default
        section = self.section(key)
        section.refuse_others(keys_of(kind))
        return section.read(kind)

    def refuse_others(self, keys: Iterable[str]) -> None:
        for key in self.table:
            if key not in keys:
                self.mistake(key, f"this key is now {RENAMED[key]}" if RENAMED.get(key) in keys else f"no such key; expected one of {', '.join(keys)}")

    def value(self, key: str, kind: type, what: str, default: Any) -> Any:
        """Returns the value of the key. If the key is missing or its value is of another kind, returns the default. Without a default, the
        key must exist."""
        if key not in self.table:
            if default is None:
                self.mistake(key, "the key is missing")
            return default
        if type(self.table[key]) is not kind:
            self.expected(key, what, self.table[key])
            return default
        return self.table[key]

    def text(self, key: str, default: str | None = None, what: str = "", is_valid: Callable[[str], object] = bool) -> str | None:
        """Returns the text of the key. If the key is missing or its value is not a text, returns the default. If `what` is given, it describes the
        texts that `is_valid` accepts, and any other text is a mistake."""
        text = self.value(key, str, "a text in quotes", default)
        if what and text is not None and text is self.table.get(key) and not is_valid(text):
            self.expected(key, what, text)
            return default
        return text

    def path_of_file(self, key: str, default: str | None = None) -> str | None:
        return self.text(key, default, "the path of a file", lambda path: path and not CONTROL.search(path))

    def flag(self, key: str) -> bool:
        return self.value(key, bool, "true or false", False)

    def number(self, key: str, least: int, most: int, default: int | None = None) -> int | None:
        number = self.value(key, int, "a whole number", default)
        if number is not None and not least <= number <= most:
            self.expected(key, f"a whole number from {least:,} to {most:,}", number)
            return default
        return number

    def word(self, key: str, words: tuple[str, ...], default: str) -> str:
        return self.text(key, default, f"one of {', '.join(words)}", words.__contains__)

    def name(self, key: str, form: re.Pattern, longest: int, more: str = "") -> str | None:
        return self.text(key, None, f"a name of 1 to {longest} letters, digits, `-`, `_` and `.`{more}", form.fullmatch)

    def reason(self, key: str) -> str | None:
        """Returns the reason that the key gives. For `true`, the reason is empty. For `false`, or if the key is missing, returns None."""
        reason = self.table.get(key, False)
        if type(reason) is bool:
            return "" if reason else None
        if type(reason) is not str or not REASON.fullmatch(reason):
            self.expected(key, "true or a reason of 1 to 200 printable ASCII characters, without a space at either end", reason)
        return str(reason)

    def texts(self, key: str) -> list[Text]:
        texts = []
        for number, member in enumerate(self.value(key, list, "an array of texts", [])):
            line = self.line(key, number)
            if type(member) is str:
                texts.append(Text(member, line))
            else:
                self.expected(key, "a text in quotes", member, line)
        return texts

    def words(self, key: str, what: str, is_needed: bool = True) -> tuple[str, ...]:
        """Returns the words of a command. If the words are invalid, or if the key is missing and not needed, the list is empty."""
        if key not in self.table and not is_needed:
            return ()
        words = tuple(word.text for word in self.texts(key))
        if words and words[0] and not any("\0" in word for word in words):
            return words
        self.mistake(key, f"expected at least one text: {what}")
        return ()

    def address(self, key: str) -> str | None:
        return self.text(key, None, f"HOST:PORT, with a port from 1 to {MOST_PORT:,}", is_address)

    def memory(self, key: str) -> int:
        """Returns the number of bytes of memory that a player may use, or 0 if there is no limit."""
        text = self.text(key, "", 'a number with K, M, G or T, such as "512M"', lambda text: not text or MEMORY.fullmatch(text))
        return int(text[:-1]) << (10 * (1 + "KMGT".index(text[-1]))) if text else 0

    def environment(self, key: str) -> tuple[tuple[str, str], ...]:
        variables = self.value(key, dict, "a table of texts", {})
        for name, value in variables.items():
            if not name or "=" in name or "\0" in name or type(value) is not str or "\0" in value:
                self.mistake(key, f"expected a variable with a text in quotes, found {spelled(name)}")
                return ()
        return tuple(variables.items())

    def anchors(self, key: str) -> dict[str, int]:
        """Returns ratings by player name."""
        ratings, players = self.value(key, dict, "a table of ratings", {}), self.names("players")
        for name, rating in ratings.items():
            line = self.lines.get((*self.path, key, name))
            if type(rating) is not int or abs(rating) > MOST_RATING:
                self.expected(key, f"for {shown(name, MOST_SHOWN)} a whole number from -{MOST_RATING:,} to {MOST_RATING:,}", rating, line)
            elif name not in players:
                self.mistake(key, f"there is no player {spelled(name)}", line)
        return ratings

    def names(self, key: str) -> set[str]:
        """Returns the names in an array of tables, even if other values in the array are invalid."""
        tables = self.table.get(key)
        return {str(table.get("name")) for table in tables if isinstance(table, dict)} if isinstance(tables, list) else set()

    def sections(self, key: str, most: int) -> list["Section"]:
        """Returns a section for each table of an array of tables, or only for the first `most` tables if there are more. The array must not be
        empty."""
        tables = self.table.get(key)
        if not isinstance(tables, list) or not tables or not all(isinstance(table, dict) for table in tables):
            self.mistake(key, f"expected one or more tables [[{key}]]")
            return []
        if len(tables) > most:
            self.mistake(key, f"expected at most {most:,} tables [[{key}]], found {len(tables):,}", self.line(key, most))
        return [Section(table, (*self.path, key, number), self.lines, self.mistakes) for number, table in enumerate(tables[:most])]

    def section(self, key: str) -> "Section":
        table = self.table.get(key)
        if not isinstance(table, dict):
            self.mistake(key, f"expected one table [{key}]")
            return Section({}, (*self.path, key), {(*self.path, key): self.line(key)}, [])
        return Section(table, (*self.path, key), self.lines, self.mistakes)


def read_by(read: Callable, *limits: object, key: str = "", **more: object) -> Any:
    """Returns a dataclass field whose value a method of `Section` reads, with these limits. The key has the name of the field, unless `key` is
    given."""
    return field(metadata={"read": lambda section, name: read(section, key or name, *limits), "key": key}, **more)


def line_of(key: str = "") -> Any:
    """Returns a dataclass field that holds the line of a key, or the line of the table if no key is given."""
    return field(metadata={"read": lambda section, _: section.line(key), "is_line": True})


def keys_of(kind: type) -> list[str]:
    """Returns the keys that an object of the class `kind` is read from."""
    return [of.metadata.get("key") or of.name for of in fields(kind) if not of.metadata.get("is_line")]


@dataclass(frozen=True)
class Game:
    """A game. If `file` is a ground GDL file, `described` may name the GDL file with variables. `instantiate` is the time limit of
    grounding in seconds. With `aborts`, random matches of the game may be aborted. `board` says how pages draw its boards."""

    name: str = read_by(Section.name, NAME, 40, FIRST)
    file: str = read_by(Section.path_of_file)
    described: str = read_by(Section.path_of_file, "")
    instantiate: int = read_by(Section.number, 1, MOST_INSTANTIATING, INSTANTIATING)
    start: int = read_by(Section.number, 1, MOST_SECONDS)
    play: int = read_by(Section.number, 1, MOST_SECONDS)
    player_rules: str = read_by(Section.word, PLAYER_RULES, PLAYER_RULES[0])
    player_rules_line: int = line_of("player_rules")
    line: int = line_of()
    aborts: bool = read_by(Section.flag)
    large: bool = read_by(Section.flag)
    board: str = read_by(Section.word, BOARDS, BOARDS[0])

    def tells_variables(self) -> bool:
        """Returns whether players get the GDL file with variables."""
        return self.player_rules == PLAYER_RULES[1]


@dataclass(frozen=True)
class Command:
    """How the competition starts a player. In the command and in the environment, `{port}` is replaced with the port of the player. Without
    a launcher, the player runs on this computer. If `memory` or `processors` is 0, there is no such limit."""

    words: tuple[str, ...] = read_by(Section.words, "the program, then its arguments", key="command")
    launcher: tuple[str, ...] = read_by(Section.words, RUNS_ELSEWHERE, False)
    directory: str = read_by(Section.path_of_file, "")
    environment: tuple[tuple[str, str], ...] = read_by(Section.environment)
    memory: int = read_by(Section.memory)
    processors: int = read_by(Section.number, 0, MOST_PROCESSORS, 0)
    restart: str = read_by(Section.word, RESTARTS, WHEN_DEAD)
    start_seconds: int = read_by(Section.number, 1, MOST_START_SECONDS, 10)
    queue_seconds: int = read_by(Section.number, 1, MOST_QUEUE_SECONDS, QUEUE_SECONDS, default=QUEUE_SECONDS)


@dataclass(frozen=True)
class Player:
    """A player, and how many matches it may play at a time. It has either an address or a command that starts it. If it has withdrawn,
    `withdrawn` is the reason, which may be empty."""

    name: str = read_by(Section.name, PLAYER_NAME, 64)
    address: str = read_by(Section.address)
    concurrent: int = read_by(Section.number, 1, MOST_AT_A_TIME, 1)
    line: int = line_of()
    command: Command | None = None
    withdrawn: str | None = read_by(Section.reason, default=None)

    def place(self) -> str:
        return f"{self.name}@{self.address}"


@dataclass(frozen=True)
class Launcher:
    """A command that runs a program on another machine, how many matches it may run at a time, and how long each may wait until it runs."""

    command: tuple[str, ...] = read_by(Section.words, RUNS_ELSEWHERE)
    slots: int = read_by(Section.number, 1, MOST_AT_A_TIME)
    queue_seconds: int = read_by(Section.number, 1, MOST_QUEUE_SECONDS, QUEUE_SECONDS, default=QUEUE_SECONDS)


@dataclass(frozen=True)
class Faults:
    """A player loses a match if `replaced` of its moves were replaced in turns where it had a choice. If `replaced` is 0, there is no
    limit."""

    replaced: int = read_by(Section.number, 1, MOST_TURNS)


@dataclass(frozen=True)
class Form:
    """The pairing: a round robin, a gauntlet of one player against all others, a schedule where each line lists a game and its players, a Swiss
    competition, or a knockout. After the rounds of a Swiss competition, the `final` best players may play a knockout."""

    kind: str
    rounds: int
    one: str
    lines: tuple[Text, ...]
    final: int
    line: int = line_of()


@dataclass(frozen=True)
class Competition:
    """The contents of competition.toml."""

    name: str = read_by(Section.name, NAME, 40, FIRST)
    start: int
    play: int
    strikes: int = read_by(Section.number, 0, MOST_STRIKES, 0)
    tries: int = read_by(Section.number, 1, 1_000, 5)
    wait: int = read_by(Section.number, 0, MOST_SECONDS, 10)
    info: int = read_by(Section.number, 1, 10, 10)
    absent: str = read_by(Section.word, ABSENT, "leave")
    forfeit: bool = read_by(Section.flag)
    order: str = read_by(Section.word, ORDERS, BY_GOALS)
    ids: str = read_by(Section.word, IDS, COUNTED_IDS)
    pause: bool = read_by(Section.flag)
    seeds: str = read_by(Section.path_of_file, "")
    anchor: dict[str, int] = read_by(Section.anchors)
    withdrawn_results: str = read_by(Section.word, WITHDRAWN_RESULTS, KEEP)
    absent_rounds: int = read_by(Section.number, 0, MOST_ROUNDS, 0)
    launcher: Launcher | None = read_by(Section.part, Launcher)
    faults: Faults = read_by(Section.part, Faults, Faults(0))
    form: Form
    games: tuple[Game, ...]
    players: tuple[Player, ...]
    lines: Mapping[Path, int] = field(default_factory=dict, compare=False, repr=False, metadata={"is_line": True})

    def line_of(self, *key: str) -> int:
        """Returns the line of a key, or of the table that lacks the key. If there is neither, returns 0."""
        return next((self.lines[key[:end]] for end in range(len(key), 0, -1) if key[:end] in self.lines), 0)

    def player(self, name: str) -> Player:
        return next(player for player in self.players if player.name == name)

    def withdrawn(self) -> dict[str, str]:
        """Returns the players that have withdrawn, each with the reason."""
        return {player.name: player.withdrawn for player in self.players if player.withdrawn is not None}

    def is_void(self, players: Iterable[str], withdrawn: Mapping[str, str]) -> bool:
        """Returns whether a match of these players does not count because one of them has withdrawn."""
        return self.withdrawn_results == VOID and any(player in withdrawn for player in players)


def refuse_twice(sections: list[Section], key: str) -> None:
    """If two sections have the same value of `key`, refuses the later section."""
    known = {}
    for section in sections:
        if type(value := section.table.get(key)) is str and known.setdefault(value, section) is not section:
            section.mistake(key, f"line {known[value].line(key)} already has {spelled(value)}")


def games_of(root: Section, clocks: dict[str, int | None]) -> tuple[Game, ...]:
    """Returns the games. A game without a clock gets the clock in `clocks`."""
    games, sections = [], root.sections("games", MOST_GAMES)
    for section in sections:
        section.refuse_others(keys_of(Game))
        section.table = {**clocks, **section.table}
        games.append(section.read(Game))
    refuse_twice(sections, "name")
    return tuple(games)


def is_place(text: str) -> bool:
    """Returns whether a text is the NAME@HOST:PORT of a player."""
    name, _, address = text.partition("@")
    return bool(PLAYER_NAME.fullmatch(name)) and is_address(address)


def command_of(section: Section) -> Command | None:
    """Returns the command that starts a player, or None if the player has an address."""
    if "command" not in section.table:
        for key in keys_of(Command):
            if key in section.table:
                section.mistake(key, "only a player with a `command` has this key")
        return None
    command = section.read(Command)
    if command.words and not any(PORT in text for text in (*command.words, *(value for _, value in command.environment))):
        section.mistake("command", f"the player must get its port: expected {PORT} in the command or in the environment")
    return command


def player_of(section: Section) -> Player:
    section.refuse_others(list(dict.fromkeys((*keys_of(Player), *keys_of(Command)))))
    command = command_of(section)
    if command and "address" in section.table:
        section.mistake("address", "a player with a `command` gets its address when it is started")
    player = section.read(Player, command=command, **({"address": ""} if command else {}))
    if command and command.restart == EACH_MATCH and player.concurrent > 1:
        section.mistake("restart", f"{EACH_MATCH!r} would end the other matches of the player: it needs `concurrent = 1`")
    return player


def players_of(root: Section) -> tuple[Player, ...]:
    sections = root.sections("players", MOST_PLAYERS)
    players = tuple(map(player_of, sections))
    refuse_twice(sections, "name")
    refuse_twice(sections, "address")
    for player in players:
        if player.command and not player.command.launcher and "launcher" in root.table:
            words = "a match that a launcher starts can't reach a player that is started on this computer: give the player a `launcher` too"
            root.mistake("players.command", words, player.line)
    return players


def form_of(root: Section) -> Form:
    section = root.section("form")
    section.refuse_others(keys_of(Form))
    kind, players = section.word("kind", tuple(KINDS), "round_robin"), root.names("players")
    rounds = section.number("rounds", 1, MOST_ROUNDS, None if kind == SWISS else 1)
    final = section.number("final", 2, MOST_PLAYERS) if "final" in section.table and kind == SWISS else 0
    if final and final > len(players):
        section.mistake("final", f"the competition has {counted(len(players), 'player')}")
    one = section.text("one") if kind == "gauntlet" else ""
    if one and one not in players:
        section.mistake("one", f"there is no player {spelled(one)}")
    lines = lines_of_schedule(section, root.names("games"), players) if kind == "schedule" else []
    for key in section.table.keys() & set(keys_of(Form)) - {"kind", *KINDS[kind]}:
        section.mistake(key, f"the kind {kind} has no such key")
    return Form(kind, rounds, one, tuple(lines), final, section.first)


def lines_of_schedule(section: Section, games: set[str], players: set[str]) -> list[Text]:
    lines = section.texts("lines")
    if not lines:
        section.mistake("lines", "expected at least one line: a game, and its players in the order of the roles")
    for line in lines:
        game, *names = line.text.split() or [""]
        if game not in games:
            section.mistake("lines", f"there is no game {spelled(game)}", line.line)
        for number, name in enumerate(names):
            if name not in players:
                section.mistake("lines", f"there is no player {spelled(name)}", line.line)
            if name in names[:number]:
                section.mistake("lines", f"the line names the player {spelled(name)} twice", line.line)
    return lines


def root_of(data: bytes, mistakes: list[Mistake]) -> Section:
    """Returns the table of a whole file. Raises `Mistaken` if the file is not TOML."""
    if len(data) > MOST_OF_COMPETITION:
        raise Mistaken([Mistake(1, "", f"the file has more than {MOST_OF_COMPETITION:,} bytes")])
    if data.startswith(MARK):
        raise Mistaken([Mistake(1, "", "the file begins with a byte order mark, the bytes EF BB BF: remove them")])
    try:
        table, lines = read_toml(data.decode("utf-8"))
        return Section(table, (), lines, mistakes)
    except UnicodeDecodeError as why:
        raise Mistaken([Mistake(data.count(b"\n", 0, why.start) + 1, "", "the file is not UTF-8")]) from None
    except TomlFault as why:
        raise Mistaken([Mistake(why.line, shown(why.key, MOST_SHOWN), shown(why.words, MOST_SHOWN))]) from None


# Once matches have been played, planned.toml usually has the same bytes as competition.toml.
@functools.lru_cache(2)
def read_competition(data: bytes) -> Competition:
    """Returns the competition that a file describes. Raises `Mistaken` with all mistakes in the file."""
    mistakes: list[Mistake] = []
    root = root_of(data, mistakes)
    root.refuse_others(keys_of(Competition))
    clocks = {key: root.number(key, 1, MOST_SECONDS, 10) for key in ("start", "play")}
    competition = root.read(Competition, **clocks, form=form_of(root), games=games_of(root, clocks), players=players_of(root), lines=root.lines)
    kind = competition.form.kind
    if "order" in root.table and kind in ROUND_KINDS:
        root.mistake("order", f"the kind {kind} determines the order, so this key is not allowed")
    for key in ("absent_rounds", "pause") if kind not in ROUND_KINDS else ():
        if key in root.table:
            root.mistake(key, f"only the kinds {' and '.join(ROUND_KINDS)} have this key")
    if kind == KNOCKOUT and competition.withdrawn_results == VOID:
        why = "the matches that a withdrawn player has won must count, since other players have lost them"
        root.mistake("withdrawn_results", f'a knockout can\'t have "void": {why}')
    if mistakes:
        raise Mistaken(sorted(mistakes, key=lambda mistake: mistake.line))
    return competition
