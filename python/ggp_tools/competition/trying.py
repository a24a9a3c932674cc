"""Starts one player that has a command, and checks it with the referee."""

import argparse
import asyncio
import pathlib
import tempfile
from dataclasses import replace

from ggp_tools.competition.competition_file import Competition, Game, Player
from ggp_tools.competition.files import Folder, Refused, locked
from ggp_tools.competition.history import competition_of_file
from ggp_tools.competition.plan import loaded_games, read_toml_file, refuse_addresses
from ggp_tools.competition.started_players import StartedPlayer
from ggp_tools.descriptions.loading import Rules
from ggp_tools.referee import Referee
from ggp_tools.reporting import Reporter
from ggp_tools.streams import report

# The word that replaces the id of a match in reports.
NO_MATCH = "try"


class Remarks(Reporter):
    """Keeps what is reported about the player until the table of `check` is complete."""

    def __init__(self) -> None:
        super().__init__()
        self.rows: list[str] = []

    def line(self, text: str) -> None:
        self.rows.append(text)

    def tell(self, player: str, address: str) -> None:
        """Writes the rows to standard error, as sentences about a player with this address."""
        for row in self.rows:
            kind, _, words = row.partition(f"{player}: ")
            state = "is not reachable" if kind.startswith("down") else f"({address}) died"
            report(words if words.startswith("| ") else f"ggp_competition: {player} {state}: {words}")


def chosen(competition: Competition, path: pathlib.Path, name: str, game: str | None) -> tuple[Player, Game]:
    """Returns the player `name` and the game `game` of a competition. Refuses a player without a command."""
    player = next((player for player in competition.players if player.name == name), None)
    if not player or not player.command:
        raise Refused(f"{path}: {name} has no `command`; `ggp_manager check` tests a running player" if player else f"{path} has no player {name}")
    first = next((candidate for candidate in competition.games if game in (None, candidate.name)), None)
    if not first:
        raise Refused(f"{path} has no game {game}")
    return player, first


async def checked(started: StartedPlayer, remarks: Remarks, referee: Referee, game: Game, rules: Rules) -> int:
    """Starts a player, and returns the exit status of `check` for this player. If the player does not start, returns 1."""
    address = ""
    try:
        await started.ready(NO_MATCH)
        address = started.address
        if not started.is_running():
            return 1
        with tempfile.TemporaryDirectory() as directory:
            file = pathlib.Path(directory) / f"{game.name}.kif"
            file.write_bytes(rules.text)
            words = [referee.path, "check", *referee.rules_words(file), f"--start={game.start}", f"--play={game.play}"]
            if rules.player_rules is not None:
                (file.parent / "players").write_bytes(rules.player_rules)
                words.append(f"--player-rules={file.parent / 'players'}")
            process = await asyncio.create_subprocess_exec(*words, "--", started.place())
            return await process.wait()
    finally:
        await started.end()
        remarks.tell(started.name, address)


def run_try(asked: argparse.Namespace, referee: Referee) -> int:
    given = pathlib.Path(asked.folder)
    folder = Folder(given if given.is_dir() else given.parent)
    path = folder.competition if given.is_dir() else given
    competition = competition_of_file(path, read_toml_file(path))
    player, game = chosen(competition, path, asked.player, asked.game)
    refuse_addresses(folder, replace(competition, players=(player,)))
    rules = loaded_games(folder, replace(competition, games=(game,)), referee)[game.name]
    # The lock keeps `play` from starting the same player.
    with locked(folder.path):
        folder.make(folder.players)
        remarks = Remarks()
        started = StartedPlayer(folder, player, 0, referee, remarks)
        return asyncio.run(checked(started, remarks, referee.taking(rules.is_large), game, rules))
