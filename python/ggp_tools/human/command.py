"""A player that lets a person make its moves in a browser.

    ggp-human [--port P] [--bind ADDRESS] [--referee ADDRESS].. [--board hex]

The referee reaches this player at `NAME@HOST:P`, like any other player. The command prints the address of a page: open this address in a browser. The
address contains a token. Only browsers that have it can see the page and make moves. Until the page is open, the player answers INFO with `busy`,
and START waits. The page shows the board, the clock, the last moves and replaced moves. To move, click on the places or the column of the move,
or on its button. While the page is open, the player makes a move without asking if no other move is legal. The rules may have variables
(`--player-rules` of the referee).
"""

import argparse
import resource
import sys

from ggp_tools.holding.command import limit_memory
from ggp_tools.human.seat import Seat
from ggp_tools.human.server import Server
from ggp_tools.streams import address, whole
from ggp_tools.templating import environment

MOST_CALLS = 20_000


def main() -> int:
    words = argparse.ArgumentParser("ggp-human", description=__doc__, formatter_class=argparse.RawDescriptionHelpFormatter)
    words.add_argument("--port", type=whole(0, 65_535), default=9150, metavar="P", help="the port (default: 9150)")
    words.add_argument("--bind", default="127.0.0.1", metavar="ADDRESS", help="the address to listen on (default: 127.0.0.1)")
    text = "accept matches only from this address; may be given several times (default: the sender of the first INFO or START)"
    words.add_argument("--referee", type=address, action="append", default=[], metavar="ADDRESS", help=text)
    text = "draw all boards with hexagons (default: boards whose places have the shape of a hexagon, a star or a triangle)"
    words.add_argument("--board", choices=["hex"], help=text)
    options = words.parse_args()
    # If the package is missing, the command ends here.
    environment()
    sys.setrecursionlimit(MOST_CALLS)
    # Even a short description may have more moves, or larger states, than fit into memory.
    limit_memory(resource.RLIMIT_DATA)
    try:
        server = Server((options.bind, options.port), Seat(options.referee, is_hex=options.board == "hex"))
    except (OSError, OverflowError) as why:
        print(f"ggp-human: {options.bind}:{options.port}: {getattr(why, 'strerror', None) or why}", file=sys.stderr)
        return 1
    print(f"open http://{options.bind}:{server.server_address[1]}{server.page}", file=sys.stderr, flush=True)
    try:
        server.serve_forever()
    except KeyboardInterrupt:
        return 130
    return 0
