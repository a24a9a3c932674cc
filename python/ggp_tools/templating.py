"""Renders pages from `templates`. Every value is escaped, and characters that are not printable ASCII are replaced with their codes."""

import base64
import functools
import hashlib
import pathlib
import sys
import typing
from collections.abc import Sequence

from ggp_tools.printable import MOST_SHOWN, shown, visible

if typing.TYPE_CHECKING:
    import jinja2
    import markupsafe

FOLDER = pathlib.Path(__file__).parent / "templates"


def end_without(missing: ImportError) -> typing.NoReturn:
    """Ends the command because a module is missing."""
    name = (missing.name or "").partition(".")[0]
    # Only Debian's Python can use Debian's packages.
    how = "" if sys.executable.startswith("/usr/bin/") else ", and run it with /usr/bin/python3"
    print(f"{pathlib.Path(sys.argv[0]).name}: this command needs the Python module {name}: apt-get install python3-{name}{how}", file=sys.stderr)
    raise SystemExit(2)


def rows_of_text(data: bytes) -> "markupsafe.Markup":
    """Returns HTML for a text of several rows."""
    import markupsafe

    return markupsafe.Markup("\n").join(map(visible, data.decode("latin-1").splitlines()))


def policy(script: str) -> str:
    """Returns the content security policy of a page. The policy allows only the page's own script and styles."""
    own = f"script-src 'sha256-{base64.b64encode(hashlib.sha256(script.encode()).digest()).decode()}'; connect-src 'self'; " if script else ""
    return f"default-src 'none'; style-src 'unsafe-inline'; {own}base-uri 'none'; form-action 'none'"


@functools.cache
def source(name: str) -> str:
    """Returns a style or a script from the templates."""
    return (FOLDER / name).read_text("ascii")


@functools.cache
def environment() -> "jinja2.Environment":
    try:
        import jinja2
        import markupsafe
    except ImportError as why:
        end_without(why)

    def printed(value: object) -> object:
        return visible(value) if isinstance(value, str) and not isinstance(value, markupsafe.Markup) else value

    created = jinja2.Environment(
        loader=jinja2.FileSystemLoader(FOLDER),
        autoescape=True,
        finalize=printed,
        trim_blocks=True,
        lstrip_blocks=True,
        undefined=jinja2.StrictUndefined,
        auto_reload=False,
    )
    created.globals |= {"policy": policy, "source": lambda name: markupsafe.Markup(source(name))}
    created.filters |= {"rows_of_text": rows_of_text, "count": "{:,}".format, "term": lambda text: shown(text, MOST_SHOWN)}
    return created


def joined(parts: Sequence["markupsafe.Markup"]) -> "markupsafe.Markup":
    """Concatenates HTML."""
    import markupsafe

    return markupsafe.Markup("".join(parts))


@functools.cache
def macros(name: str) -> typing.Any:
    """Returns the macros of a template. Each macro returns HTML."""
    return environment().get_template(f"{name}.html").module


def page(name: str, **values: object) -> bytes:
    """Renders a page in ASCII."""
    return (environment().get_template(f"{name}.html").render(values) + "\n").encode("ascii", "xmlcharrefreplace")
