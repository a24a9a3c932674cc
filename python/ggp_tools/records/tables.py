"""Writes tables of matches, players and moves as an SQLite database or as CSV. Each row says whether its record is lawful, and whether
the record is a copy of an earlier one. The views contain each lawful record once, and no other records."""

import contextlib
import csv
import errno
import os
import pathlib
import sqlite3
import tempfile
from collections.abc import Iterable, Iterator

from ggp_tools.records.collection import SURROGATE, Judged
from ggp_tools.records.record import record_sum

TABLES = {
    "matches": (
        "number INTEGER PRIMARY KEY, file TEXT, line INTEGER, match_id TEXT, game TEXT, rules_sum TEXT, verdict TEXT, phase TEXT, cause TEXT, "
        "turns INTEGER, start_clock INTEGER, play_clock INTEGER, strikes INTEGER, version INTEGER, checksum TEXT, lawful INTEGER, copy_of INTEGER"
    ),
    "players": (
        "match_number INTEGER, role_number INTEGER, role TEXT, player TEXT, goal INTEGER, substitutions INTEGER, start_mark TEXT, end_mark TEXT, "
        "lawful INTEGER, copy_of INTEGER"
    ),
    "moves": "match_number INTEGER, turn INTEGER, role_number INTEGER, move TEXT, error TEXT, lawful INTEGER, copy_of INTEGER",
}
COUNTED = ("players", "moves")
Row = tuple[object, ...]


def stored(value: object) -> object:
    """Converts a value for a table: a number of more than 64 bits to its digits, and surrogates in a text to escapes."""
    if isinstance(value, int) and value.bit_length() > 63:
        return str(value)
    return value.encode("ascii", "backslashreplace").decode() if isinstance(value, str) and SURROGATE.search(value) else value


def match_row(number: int, judged: Judged, record: dict) -> Row:
    game, line = judged.game, judged.line
    named = (game.name, game.rules_sum) if game else (None, None)
    clocks = record.get("startClock"), record.get("playClock"), record.get("strikes"), record.get("version")
    return (number, line.file, line.number, line.match_id, *named, judged.verdict, record.get("phase"), record.get("cause"), len(record.get("moves", ())), *clocks)


def player_rows(number: int, record: dict) -> Iterator[Row]:
    goals = record["goalValues"] or [None] * len(record["roles"])
    for role, (name, player, goal) in enumerate(zip(record["roles"], record["players"], goals)):
        substitutions = sum(bool(errors[role]) for errors in record["errors"])
        # In CSV, an empty text would look like a missing value.
        marks = ("answered" if record[key][role] == "" else record[key][role] for key in ("startMarks", "endMarks"))
        yield number, role, name, player, goal, substitutions, *marks


def move_rows(number: int, record: dict) -> Iterator[Row]:
    """Yields the moves. Turns are counted from 1."""
    for turn, (moves, errors) in enumerate(zip(record["moves"], record["errors"]), 1):
        for role, (move, error) in enumerate(zip(moves, errors)):
            yield number, turn, role, move, error


def all_rows(lines: Iterable[Judged]) -> Iterator[tuple[str, Row]]:
    """Yields the rows of all lines, each with its table. A line that does not have the shape of a record is only in `matches`."""
    firsts: dict[str, int] = {}
    for number, judged in enumerate(lines, 1):
        checksum = record_sum(judged.line.data) if judged.line.data else None
        first = firsts.setdefault(checksum, number) if checksum else number
        marks = int(judged.is_lawful), first if first != number else None
        record = judged.line.shaped or {}
        rows = {"matches": [(*match_row(number, judged, record), checksum)]}
        if record:
            rows |= {"players": player_rows(number, record), "moves": move_rows(number, record)}
        yield from ((table, tuple(map(stored, (*row, *marks)))) for table, own in rows.items() for row in own)


@contextlib.contextmanager
def made_whole(path: pathlib.Path) -> Iterator[pathlib.Path]:
    """Yields a temporary path. After the file has been written, renames it to the final path, which must not exist yet."""
    with tempfile.TemporaryDirectory(prefix=".ggp-records-", dir=path.parent) as folder:
        made = pathlib.Path(folder, "made")
        yield made
        if os.path.lexists(path):
            raise FileExistsError(errno.EEXIST, os.strerror(errno.EEXIST), str(path))
        made.rename(path)


def write_sqlite(path: pathlib.Path, lines: Iterable[Judged]) -> None:
    with made_whole(path) as made, contextlib.closing(sqlite3.connect(made)) as database, database:
        for table, columns in TABLES.items():
            database.execute(f"CREATE TABLE {table} ({columns})")
        for table, row in all_rows(lines):
            database.execute(f"INSERT INTO {table} VALUES ({', '.join('?' * len(row))})", row)
        for table in COUNTED:
            database.execute(f"CREATE VIEW counted_{table} AS SELECT * FROM {table} WHERE lawful = 1 AND copy_of IS NULL")
        database.execute("CREATE INDEX players_by_name ON players (player)")
        database.execute("CREATE INDEX moves_by_match ON moves (match_number)")


def write_csv(folder: pathlib.Path, lines: Iterable[Judged]) -> None:
    """Writes a CSV file for each table. The first row of the file has the names of the columns."""
    folder.mkdir(parents=True, exist_ok=True)
    with contextlib.ExitStack() as files:
        writers = {table: csv.writer(files.enter_context(open(folder / f"{table}.csv", "w", encoding="utf-8", newline=""))) for table in TABLES}
        for table, writer in writers.items():
            writer.writerow(column.split()[0] for column in TABLES[table].split(", "))
        for table, row in all_rows(lines):
            writers[table].writerow(row)
