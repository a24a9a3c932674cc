"""The Python tools around the referee `ggp_manager`: they ground games, run competitions, and show, explain and check records. Pages need jinja2.
Live pages also need aiohttp, and GDL files with variables need the grounder gringo. Everything else needs only the standard library."""

import os
import sys

# The version of the referee that this package is delivered with.
VERSION = "0.3.0"

if sys.version_info < (3, 11):
    sys.exit("%s: this is Python %d.%d, but the command needs 3.11 or later" % (os.path.basename(sys.argv[0]), *sys.version_info[:2]))
