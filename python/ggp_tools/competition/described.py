"""Uses `ggp-hold-against` to compare matches with the published descriptions of their games, so that you need not trust the grounding of the
rules."""

import pathlib
from collections.abc import Sequence

from ggp_tools.competition.competition_file import Game
from ggp_tools.competition.files import Refused
from ggp_tools.competition.packing import pack
from ggp_tools.competition.plan import Plan, sums_of
from ggp_tools.competition.schedule import Match
from ggp_tools.descriptions.loading import has_variables, run_module, sum_of
from ggp_tools.processes import ended_words
from ggp_tools.referee import Unchecked

# The time limit for each match, in seconds.
SECONDS = 60
SAME, DIFFERENT, NOT_FOLLOWED = 0, 1, 3
# How the line about a record begins, for each result.
IS_SAME, DIFFERS, IS_NOT_FOLLOWED = "the same: ", "differs: ", "not followed: "
REPORT = "report-{}.tar.gz"
# Whether a description has variables, by its checksum. This is cached, because it takes long to compute for a large description.
HAVE_VARIABLES: dict[str, bool] = {}


def description_of(plan: Plan, game: Game) -> tuple[bytes | None, str | None]:
    """Returns the description of a game, or None if it has no variables or can't be used. Also returns the reason why it can't be used, or None.
    A description can't be used if it is missing, or has changed since `plan` read it."""
    file = plan.folder.description(game)
    try:
        sums, text = sums_of(plan.folder.description_sums), file.read_bytes()
    except Refused as why:
        return None, str(why)
    except OSError as why:
        return None, f"{file} can't be read: {why.strerror}"
    if (digest := sum_of(text)) != sums.get(f"{game.name}.kif"):
        return None, f"{file} is not the description that the rules of {game.name} were made from"
    if digest not in HAVE_VARIABLES:
        HAVE_VARIABLES[digest] = has_variables(text)
    return (text if HAVE_VARIABLES[digest] else None), None


def comparisons(path: pathlib.Path, records: Sequence[bytes]) -> list[str]:
    """Compares records of one line each with a description. Returns the result for each record."""
    run = run_module("holding.command", f"--seconds={SECONDS}", "--", str(path), data=b"".join(records))
    lines = run.stdout.decode("ascii", "replace").splitlines()
    if run.returncode not in (SAME, DIFFERENT, NOT_FOLLOWED) or len(lines) != len(records):
        last = (run.stderr.decode("ascii", "replace").strip().splitlines() or [ended_words(run.returncode)])[-1]
        raise Unchecked(f"records can't be compared with {path}: {last}")
    return lines


def write_report(plan: Plan, match: Match, files: dict[str, bytes]) -> pathlib.Path:
    """Writes an archive that shows how a match differs from the description of its game, and returns its path."""
    path = plan.folder.path / REPORT.format(match.id)
    with open(path, "wb") as file:
        pack(file, ((f"{match.id}/{name}", data) for name, data in {**files, "rules.kif": plan.rules[match.game].text}.items()))
    return path
