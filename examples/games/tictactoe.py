#!/usr/bin/env python3
"""Writes tic-tac-toe in ground GDL, with a copy of each rule for each cell, mark and row.

tictactoe.py           prints it
tictactoe.py --check   exits with status 1 if tictactoe.kif differs from it
"""

import argparse
import pathlib
import sys

SIZE = (1, 2, 3)
BLANK = "b"
CELLS = [(row, column) for row in SIZE for column in SIZE]
LINES = [
    *[[(row, column) for column in SIZE] for row in SIZE],
    *[[(row, column) for row in SIZE] for column in SIZE],
    [(place, place) for place in SIZE],
    [(place, 4 - place) for place in SIZE],
]
PLAYERS = [("xplayer", "x", "oplayer"), ("oplayer", "o", "xplayer")]


def cell(place, mark):
    row, column = place
    return f"(cell {row} {column} {mark})"


def move(place):
    row, column = place
    return f"(mark {row} {column})"


def sentences():
    for player, _, _ in PLAYERS:
        yield f"(role {player})"
    for place in CELLS:
        yield f"(init {cell(place, BLANK)})"
    yield "(init (control xplayer))"
    for player, _, other in PLAYERS:
        for place in CELLS:
            yield f"(<= (legal {player} {move(place)}) (true (control {player})) (true {cell(place, BLANK)}))"
        yield f"(<= (legal {player} noop) (true (control {other})))"
    for place in CELLS:
        for player, mark, _ in PLAYERS:
            yield f"(<= (next {cell(place, mark)}) (does {player} {move(place)}))"
            yield f"(<= (next {cell(place, mark)}) (true {cell(place, mark)}))"
        left_alone = " ".join(f"(not (does {player} {move(place)}))" for player, _, _ in PLAYERS)
        yield f"(<= (next {cell(place, BLANK)}) (true {cell(place, BLANK)}) {left_alone})"
    for player, _, other in PLAYERS:
        yield f"(<= (next (control {player})) (true (control {other})))"
    for _, mark, _ in PLAYERS:
        for line in LINES:
            yield f"(<= (line {mark}) {' '.join(f'(true {cell(place, mark)})' for place in line)})"
    yield f"(<= open (or {' '.join(f'(true {cell(place, BLANK)})' for place in CELLS)}))"
    yield "(<= terminal (or (line x) (line o) (not open)))"
    for player, mark, _ in PLAYERS:
        other = "o" if mark == "x" else "x"
        yield f"(<= (goal {player} 100) (line {mark}))"
        yield f"(<= (goal {player} 50) (not (line x)) (not (line o)) (not open))"
        yield f"(<= (goal {player} 0) (line {other}))"


def main():
    words = argparse.ArgumentParser(description=__doc__, formatter_class=argparse.RawDescriptionHelpFormatter)
    words.add_argument("--check", action="store_true")
    is_check = words.parse_args().check
    text = "\n".join(["; Tic-tac-toe, written by tictactoe.py.", *sentences(), ""])
    if not is_check:
        print(text, end="")
    elif pathlib.Path(__file__).with_suffix(".kif").read_text() != text:
        sys.exit("tictactoe.kif differs from the output of tictactoe.py")


if __name__ == "__main__":
    main()
