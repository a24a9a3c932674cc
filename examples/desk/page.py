#!/usr/bin/env python3
"""A web page where two people play tic-tac-toe against each other. A listening desk keeps the matches and judges each move.

    page.py ADDRESS PORT

ADDRESS is the address of a `ggp_manager desk --listen` whose game is examples/games/tictactoe.kif. The page at http://127.0.0.1:PORT begins
a match."""

import argparse
import pathlib
import re
import secrets
import sys
import threading
from http.server import BaseHTTPRequestHandler, ThreadingHTTPServer
from urllib.parse import parse_qs

sys.dont_write_bytecode = True
sys.path.insert(0, str(pathlib.Path(__file__).resolve().parents[2] / "python"))
from ggp_tools.desk import Desk

MARKS = "xo"
CELLS = [f"{row} {column}" for row in (1, 2, 3) for column in (1, 2, 3)]
LINES = [*(CELLS[first : first + 3] for first in (0, 3, 6)), *(CELLS[first::3] for first in (0, 1, 2)), CELLS[::4], CELLS[2:7:2]]
HEAD = "<!DOCTYPE html><title>Tic-tac-toe</title><style>body{font:2em monospace}button{font:1em monospace;min-width:3em;height:3em}</style>"


class Match:
    """A match on the desk, the marks on its board, and the player whose turn it is."""

    def __init__(self, desk: Desk) -> None:
        self.desk, self.id, self.round, self.turn = desk, secrets.token_hex(8), 0, 0
        self.marks, self.lock = dict[str, str](), threading.Lock()
        desk.open(self.id, MARKS)
        self.answer("ready", "ready")

    def answer(self, *answers: str) -> None:
        for player, answer in enumerate(answers):
            self.desk.submit(self.id, player, self.round, answer)
        self.round += 1

    def mark(self, player: int, cell: str) -> None:
        """Submits a move for this player and `noop` for the other one. Marks the cell that the desk reports, which is a different one if
        the player's choice was not free."""
        with self.lock:
            if player == self.turn and cell in CELLS:
                self.answer(*(f"(mark {cell})" if other == player else "noop" for other in (0, 1)))
                due = self.desk.next(self.id, 0)
                self.marks[re.search(r"\d \d", due.joint_move)[0]] = MARKS[player]
                self.turn = 1 - player if due.message == "play" else None
                if self.turn is None:
                    self.answer("", "")

    def page(self, player: int) -> str:
        winner = next((self.marks[line[0]] for line in LINES if len({self.marks.get(cell, cell) for cell in line}) == 1), "nobody")
        state = {player: "Your turn.", None: f"The match is over: {winner} wins."}.get(self.turn, "Please wait.<meta http-equiv=refresh content=1>")
        board = ""
        for cell in CELLS:
            off = "" if self.turn == player and cell not in self.marks else "disabled"
            board += f"<button name=cell value='{cell}' {off}>{self.marks.get(cell, '&nbsp;')}</button>{'<br>' * cell.endswith('3')}"
        return f"<p>You are {MARKS[player]}. {state}</p><form method=post>{board}</form>"


class Handler(BaseHTTPRequestHandler):
    desk: Desk
    links: dict[str, tuple[Match, int]] = {}  # by path

    def do_GET(self) -> None:
        match, player = self.links.get(self.path, (None, 0))
        self.reply(match.page(player) if match else "<form method=post><button>New match</button></form>")

    def do_POST(self) -> None:
        text = self.rfile.read(int(self.headers["Content-Length"])).decode("latin-1")
        match, player = self.links.get(self.path, (None, 0))
        if match:
            match.mark(player, parse_qs(text).get("cell", [""])[0])
            self.reply(match.page(player))
        else:
            match, links = Match(self.desk), [f"/{secrets.token_urlsafe(8)}" for _ in MARKS]
            self.links.update({link: (match, player) for player, link in enumerate(links)})
            self.reply("".join(f"<p><a href={link}>The page of {mark}</a></p>" for link, mark in zip(links, MARKS)))

    def reply(self, page: str) -> None:
        self.send_response(200)
        self.send_header("Content-Type", "text/html; charset=utf-8")
        self.end_headers()
        self.wfile.write(f"{HEAD}{page}".encode())


def main() -> None:
    words = argparse.ArgumentParser(description=__doc__, formatter_class=argparse.RawDescriptionHelpFormatter)
    words.add_argument("address", metavar="ADDRESS")
    words.add_argument("port", metavar="PORT", type=int)
    asked = words.parse_args()
    with Desk.connect(asked.address) as Handler.desk, ThreadingHTTPServer(("127.0.0.1", asked.port), Handler) as server:
        server.serve_forever()


if __name__ == "__main__":
    main()
