"""Starts `ggp_competition`. If you press Ctrl-C while the modules are loaded, the command ends without a message."""

import signal

INTERRUPTED = signal.getsignal(signal.SIGINT)
if INTERRUPTED == signal.default_int_handler:
    signal.signal(signal.SIGINT, signal.SIG_DFL)

from ggp_tools.competition import command


def main() -> int:
    signal.signal(signal.SIGINT, INTERRUPTED)
    return command.main()
