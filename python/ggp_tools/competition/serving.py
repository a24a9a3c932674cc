"""The command `serve`: live pages of a competition for browsers."""

import argparse
import os
import re
import signal
import typing
from collections.abc import Callable

from ggp_tools.competition.competition_file import MOST_PORT
from ggp_tools.competition.files import Folder, Refused, allow_files
from ggp_tools.competition.plan import read_plan
from ggp_tools.referee import Referee
from ggp_tools.streams import address, say, whole
from ggp_tools.templating import end_without

if typing.TYPE_CHECKING:
    from ggp_tools.competition.live_site import LiveSite

MOST_CONNECTIONS, MOST_DELAY = 4_096, 3_600
# The maximum number of open files that are not connections.
OTHER_FILES = 64
NAME = "[A-Za-z0-9]([A-Za-z0-9.-]{0,251}[A-Za-z0-9])?"
ORIGIN = re.compile(f"(https?)://({NAME})(?::([0-9]{{1,5}}))?", re.IGNORECASE)
DEFAULT_PORTS = {"http": 80, "https": 443}


def matching(form: str, expected: str) -> Callable[[str], str]:
    """Returns a function that accepts texts of this form."""

    def checked(text: str) -> str:
        if not re.fullmatch(form, text):
            raise argparse.ArgumentTypeError(f"expected {expected}, found {text!r}")
        return text

    return checked


HOST = matching(NAME, "a host name, such as cup.example.org")
BASE = matching("(/[A-Za-z0-9_~-][A-Za-z0-9._~-]*)*", "a path that begins with / and does not end with it, such as /cup")


def origin(text: str) -> str:
    """Returns an origin as browsers write it: in lower case, and without the usual port of its scheme."""
    parts = ORIGIN.fullmatch(text)
    if not parts or not 1 <= int(parts[4] or 1) <= MOST_PORT:
        raise argparse.ArgumentTypeError(f"expected an origin, such as https://club.example, found {text!r}")
    scheme, name, port = parts[1].lower(), parts[2].lower(), int(parts[4] or 0)
    return f"{scheme}://{name}" if port in (0, DEFAULT_PORTS[scheme]) else f"{scheme}://{name}:{port}"


def add_serve(command: argparse.ArgumentParser) -> None:
    """Adds the options of `serve`."""
    command.add_argument("--port", type=whole(0, MOST_PORT), default=8_000, metavar="P", help="the port to listen on (default: 8000); 0 chooses a free port")
    text = "the address to listen on (default: 127.0.0.1, which only this computer can reach); 0.0.0.0 listens on all addresses"
    command.add_argument("--bind", type=address, default="127.0.0.1", metavar="ADDRESS", help=text)
    text = "accept at most N connections at the same time (default: 256)"
    command.add_argument("--connections", type=whole(1, MOST_CONNECTIONS), default=256, metavar="N", help=text)
    text = "delay everything that the pages show by this many seconds (default: 0)"
    command.add_argument("--delay", type=whole(0, MOST_DELAY), default=0, metavar="SECONDS", help=text)
    text = "also answer requests for this host name, for example that of a proxy; can be given several times"
    command.add_argument("--host", type=HOST, action="append", default=[], metavar="NAME", help=text)
    command.add_argument("--base-path", type=BASE, default="", metavar="PATH", help="the path under which a proxy serves the pages, such as /cup")
    text = "let pages of this origin, such as https://club.example, show these pages in a frame; can be given several times"
    command.add_argument("--embed", type=origin, action="append", default=[], metavar="ORIGIN", help=text)


def run_serve(asked: argparse.Namespace, referee: Referee) -> int:
    import asyncio

    from ggp_tools.competition.live_site import LiveSite, plan_stamp

    if (most := allow_files()) < asked.connections + OTHER_FILES:
        needed = asked.connections + OTHER_FILES
        raise Refused(f"--connections {asked.connections} needs {needed} open files, but the system allows only {most} (ulimit -n)")
    stamp = plan_stamp(Folder(asked.folder))
    # No page is served while a changed plan is read.
    site = LiveSite(read_plan(asked.folder, referee), referee, lambda: read_plan(asked.folder, referee, checks_records=False), stamp, asked.delay)
    site.update()
    asyncio.run(serve(site, asked))
    return 0


async def serve(site: "LiveSite", asked: argparse.Namespace) -> None:
    """Serves the pages until the command is interrupted."""
    import asyncio

    try:
        from ggp_tools.competition.http_server import Server
    except ImportError as why:
        end_without(why)
    server, stopped = Server(site, asked.connections, asked.base_path, asked.host, asked.embed), asyncio.Event()
    # Without these handlers, the program would ignore interrupts if a shell had started it in the background.
    for number in (signal.SIGINT, signal.SIGTERM):
        asyncio.get_running_loop().add_signal_handler(number, stopped.set)
    try:
        host, port = await server.begin(asked.bind, asked.port)
    except OSError as why:
        raise Refused(f"can't listen on {asked.bind} port {asked.port}: {os.strerror(why.errno)}") from None
    say(f"http://{f'[{host}]' if ':' in host else host}:{port}{asked.base_path}/")
    watching = asyncio.create_task(server.watch())
    await stopped.wait()
    watching.cancel()
    server.end()
