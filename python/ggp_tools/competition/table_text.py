"""Formats the table of one or several competitions as text, as CSV and as JSON."""

import csv
import io
import json
from collections.abc import Iterable, Iterator, Mapping, Sequence
from dataclasses import replace

from ggp_tools.competition.competition_file import BY_POINTS, KNOCKOUT, SWISS, Competition, Faults
from ggp_tools.competition.files import Refused
from ggp_tools.competition.plan import Plan
from ggp_tools.competition.results import FULL_GOAL, Result, again_words
from ggp_tools.competition.rounds import is_by_rounds, rounds_of
from ggp_tools.competition.schedule import Match
from ggp_tools.competition.table import FINAL, Line, Table

HEADS = (
    *("player", "matches", "goals", "won", "drawn", "lost", "moves", "replaced", "absent", "retired", "rating", "half", "group"),
    *("points", "won_by_forfeit", "lost_by_forfeit", "byes", "buchholz", "rounds_won"),
)
TABLE_FILES = "table.txt", "table.csv", "crosstable.csv", "table.json"
METHOD = (
    "maximum likelihood in the model of Bradley and Terry, by Newton's method; a draw is half a win; "
    "intervals of 95% from the observed information; 400 points are odds of 10 to 1"
)


def forfeit_rule(competition: Competition) -> str:
    """Explains how a player forfeits a match, and which goals count then. If no player can forfeit a match, returns an empty string."""
    most = competition.faults.replaced
    conditions = ["it was retired"] * competition.forfeit + [f"{most:,} or more of its moves were replaced (forced moves do not count)"] * bool(most)
    counts = (
        f"It then gets 0. In a match of two players its opponent gets {FULL_GOAL}. "
        f"In a larger match the others keep their goals; if that match was aborted, they share {FULL_GOAL}."
    )
    return f"A player loses a match if {', or if '.join(conditions)}. {counts}" if conditions else ""


def method_of(competition: Competition) -> str:
    """Explains the ratings."""
    anchors = " and ".join(f"{name} has {rating}" for name, rating in competition.anchor.items())
    return f"{METHOD}; shifted so that {anchors}{' on average' * (len(competition.anchor) > 1)}" if anchors else METHOD


def in_order(plan: Plan, results: Mapping[str, Result]) -> list[Result]:
    """Returns the results in the order of the schedule. The match of each result is replaced with the one in the current schedule."""
    pairs = ((results[match.id], match) for match in plan.matches if match.id in results)
    return [result if result.match is match else replace(result, match=match) for result, match in pairs]


def without_record(plan: Plan, results: Iterable[Result]) -> list[Match]:
    """Returns the matches that have no result, in the order of the schedule, without matches that are not played because a player has withdrawn."""
    known = {result.match.id for result in results}
    return [match for match in plan.matches if match.id not in known and not match.withdrawn]


def rounded(number: float | None, places: int) -> float | None:
    """Rounds a number for a file, because its last digits may differ between computers."""
    return None if number is None else round(number, places) + 0.0


def fields(line: Line) -> dict[str, object]:
    """Returns the values of a line, by the column heads of a file."""
    values = {**vars(line), "goals": line.mean(), "points": line.points(), "rating": None, "half": None, "group": None}
    if line.rating:
        values |= {"rating": rounded(line.rating.rating, 1), "half": rounded(line.rating.half, 1), "group": line.rating.group}
    return {head: values[head] for head in HEADS}


def crosstable(table: Table) -> list[dict[str, object]]:
    """Returns a row for each pair of players, by the column heads of a file: how often the two met, and the points of the first."""
    return [
        {"player": player, "opponent": opponent, "matches": met, "points": table.points[player, opponent]}
        for (player, opponent), met in sorted(table.met.items())
    ]


def points_text(points: float) -> str:
    return f"{points:.1f}".removesuffix(".0")


def rating_text(table: Table, line: Line) -> str:
    """Returns the rating in `line` with its interval, and with its group if the table has several groups."""
    if not line.rating or line.rating.rating is None:
        return "none"
    several = max(line.rating.group or 0 for line in table.lines.values() if line.rating) > 1
    return f"{round(line.rating.rating)} +- {round(line.rating.half)}" + (f" in {line.rating.group}" if several else "")


def columns(rows: Sequence[list[str]]) -> Iterator[str]:
    """Formats rows as lines. The second column is aligned to the left, and the others to the right."""
    widths = [max(map(len, column)) for column in zip(*rows)]
    for row in rows:
        cells = [cell.ljust(width) if at == 1 else cell.rjust(width) for at, (cell, width) in enumerate(zip(row, widths))]
        yield "  ".join(cells).rstrip()


def cells_of(table: Table, line: Line) -> dict[str, str]:
    """Returns the cells of a line of the standings, by column head. Columns that the table does not have are left out."""
    cells = {
        "player": f"{line.player} (no move of its own)" if 0 < line.absent == line.matches else line.player,
        "matches": str(line.matches),
        "rounds won": ("-" if line.rounds_won is None else str(line.rounds_won)) if table.by in (KNOCKOUT, FINAL) else "",
        "points": points_text(line.points()) if table.by in (BY_POINTS, SWISS, FINAL) else "",
        "Buchholz": points_text(line.buchholz or 0.0) if table.by in (SWISS, FINAL) else "",
        "goals": "none" if line.mean() is None else f"{line.mean():.2f}",
        "won": str(line.won),
        "drawn": str(line.drawn),
        "lost": str(line.lost),
        "by forfeit": f"{line.won_by_forfeit} won, {line.lost_by_forfeit} lost" if table.has_forfeits() else "",
        "replaced": f"{line.replaced} of {line.moves}",
        "absent": str(line.absent),
        "retired": str(line.retired),
        "rating": rating_text(table, line),
    }
    return {head: cell for head, cell in cells.items() if cell}


def standings_rows(table: Table) -> Iterator[list[str]]:
    """Yields the rows of the standings. The first row contains the column heads."""
    yield ["", *cells_of(table, Line("nobody"))]
    for rank, line in zip(table.ranks(), table.standings()):
        yield [str(rank), *cells_of(table, line).values()]


def crosstable_rows(table: Table) -> Iterator[list[str]]:
    """Yields the rows of the crosstable. The first row contains the column heads. A cell consists of the points, a slash, and the number of matches.
    The players have the same order and numbers as in the standings."""
    order = [line.player for line in table.standings()]
    yield ["", "player", *map(str, range(1, len(order) + 1))]
    for number, player in enumerate(order, 1):
        cells = ((table.points[player, opponent], table.met[player, opponent]) for opponent in order)
        yield [str(number), player, *(f"{points_text(points)}/{met}" if met else "." for points, met in cells)]


def notes(table: Table) -> Iterator[str]:
    """Yields remarks about the standings."""
    yield from table.withdrawn
    yield from map(again_words, table.again)
    yield from (f"round {planned.number}{planned.byes_words()}" for planned in table.rounds if planned.byes)
    for line in table.standings():
        if 0 < line.absent == line.matches:
            yield f"{line.player} made no move of its own: all of its moves were replaced"
        elif line.absent:
            yield f"{line.player} made no move of its own in {line.absent} of its {line.matches} matches"
    lines = [line for line in table.standings() if line.rating and line.rating.rating is None] if table.is_of_pairs() else []
    if unrated := [line.player for line in lines if line.rating.group is None]:
        yield f"no rating: {', '.join(unrated)} (the results do not determine a rating)"
    if unlimited := [line.player for line in lines if line.rating.group]:
        yield f"no rating: {', '.join(unlimited)} (the results determine a rating so weakly that it can't be computed)"


def count_of_planned(plan: Plan) -> int:
    """Returns how many matches of the schedule count if all are played."""
    return sum(match.counts() for match in plan.matches)


def table_text(plan: Plan, tables: list[Table]) -> str:
    """Returns the tables as text."""
    rounds = f", {len(plan.rounds)} of {rounds_of(plan.competition)} rounds" if plan.rounds else ""
    lines = [f"{plan.competition.name}: {tables[0].matches} of {count_of_planned(plan)} matches{rounds}"]
    if rule := forfeit_rule(plan.competition):
        lines.append(rule)
    for table in tables:
        lines += ["", table.game, "", *columns(list(standings_rows(table)))]
        if table.is_of_pairs():
            lines += ["", "points / matches", *columns(list(crosstable_rows(table)))]
        lines += [f"* {note}" for note in notes(table)]
    return "\n".join([*lines, "", f"Ratings: {method_of(plan.competition)}.", ""])


def csv_text(heads: Sequence[str], rows: Iterable[dict[str, object]]) -> str:
    text = io.StringIO()
    writer = csv.DictWriter(text, heads, lineterminator="\n")
    writer.writeheader()
    writer.writerows(rows)
    return text.getvalue()


def json_text(plan: Plan, tables: list[Table]) -> str:
    values = {
        "name": plan.competition.name,
        "matches": tables[0].matches,
        "planned": count_of_planned(plan),
        "forfeit": plan.competition.forfeit,
        "replaced": plan.competition.faults.replaced,
        "order": tables[0].by,
        "rounds": [{"round": planned.number, "pairs": planned.pairs, "byes": planned.byes} for planned in plan.rounds],
        "ratings": method_of(plan.competition),
        "tables": [
            {
                "game": table.game,
                "matches": table.matches,
                "lines": [fields(line) for line in table.standings()],
                "crosstable": crosstable(table),
                "notes": list(notes(table)),
            }
            for table in tables
        ],
    }
    return json.dumps(values, indent=1) + "\n"


def table_files(plan: Plan, tables: list[Table]) -> dict[str, bytes]:
    """Returns the files of the table, by name."""
    lines = ({"game": table.game, **fields(line)} for table in tables for line in table.standings())
    met = ({"game": table.game, **row, "points": points_text(row["points"])} for table in tables for row in crosstable(table))
    pairs = csv_text(("game", "player", "opponent", "matches", "points"), met)
    texts = table_text(plan, tables), csv_text(("game", *HEADS), lines), pairs, json_text(plan, tables)
    return {name: text.encode("ascii") for name, text in zip(TABLE_FILES, texts)}


def joined(plans: Sequence[Plan]) -> Plan:
    """Returns a plan with the players, games and matches of several plans, for one table. Refuses plans with the same name, and plans that
    have different rules for the same game. Each match counts under the rules of its competition, and rounds do not count."""
    if len(plans) == 1:
        return plans[0]
    first, competitions, rules = plans[0].competition, [plan.competition for plan in plans], {}
    names = [competition.name for competition in competitions]
    if repeated := [name for name in names if names.count(name) > 1]:
        raise Refused(f"two of the directories have a competition named {repeated[0]}; a joint table needs different names")
    for plan in plans:
        for name, ground in plan.rules.items():
            if rules.setdefault(name, ground).sum != ground.sum:
                raise Refused(f"the rules of {name} in {plan.folder.path} differ from those in an earlier directory")
    anchor = {name: rating for competition in competitions[::-1] for name, rating in competition.anchor.items()}
    # The table explains forfeits only if their rules are the same in all competitions.
    has_same_forfeits = len({(competition.forfeit, competition.faults) for competition in competitions}) == 1
    forfeit, faults = (first.forfeit, first.faults) if has_same_forfeits else (False, Faults(0))
    whole = replace(
        first, name=" + ".join(names), anchor=anchor, forfeit=forfeit, faults=faults, form=replace(first.form, kind="round_robin", final=0),
        order=BY_POINTS if any(map(is_by_rounds, competitions)) else first.order,
        games=tuple({game.name: game for competition in competitions for game in competition.games}.values()),
        players=tuple({player.name: replace(player, withdrawn=None) for competition in competitions for player in competition.players}.values()),
    )
    return Plan(plans[0].folder, whole, rules, [match for plan in plans for match in plan.matches])
