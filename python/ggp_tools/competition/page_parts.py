"""Builds the pages of a competition from named parts, so that a browser that shows a page can replace the parts that have changed."""

import json
import typing
from dataclasses import dataclass

from ggp_tools.templating import macros

if typing.TYPE_CHECKING:
    from markupsafe import Markup

    from ggp_tools.competition.schedule import Match

# An item of a page: its name, which is its id, and its HTML.
Item = tuple[str, str]


@dataclass(frozen=True)
class Part:
    """A part of a page, which is replaced as a whole."""

    name: str
    text: str

    def html(self) -> str:
        return f'<section id="{self.name}">{self.text}</section>'


@dataclass(frozen=True)
class Items:
    """A part of a page whose items come and go. Each item is one HTML element, with the item's name as its id. The last element that
    `opening` opens has the name of the part as its id."""

    name: str
    opening: str
    items: tuple[Item, ...]
    closing: str

    def html(self) -> str:
        return "".join([self.opening, *(text for _, text in self.items), self.closing])


PageParts = list[Part | Items]


def html_of(template: str, macro: str, **values: object) -> "Markup":
    """Returns the HTML that a macro of a template generates from `values`."""
    return getattr(macros(template), macro)(**values).strip()


def part(macro: str, /, has_content: object = True, **values: object) -> Part:
    """Returns the part of a page that a macro of competition.html generates, or an empty part if there is no content."""
    return Part(macro, html_of("competition", macro, **values) if has_content else "")


def list_part(name: str, title: str, intro: str, rows: list[tuple["Match", str]], most: int, where: str = "") -> Part:
    """Returns a list of matches without a result, each with a remark. The list has at most `most` rows, and says how many more matches there
    are."""
    texts = {"title": title, "intro": intro, "rows": rows[:most], "more": len(rows[most:]), "where": where}
    return Part(name, html_of("competition", "match_list", **texts) if rows else "")


def rows_part(name: str, title: str, heads: list[str], rows: list[Item], nothing: str, control: str = "") -> Items:
    """Returns a table whose rows come and go. `nothing` is shown if there are no rows. `control` is the HTML of a control above the
    table."""
    opening = html_of("links", "open_table", name=name, title=title, heads=heads, nothing=nothing, control=control)
    return Items(name, opening, tuple(rows), "</tbody></table></div>")


# ---- the changes to a page


def frame(parts: PageParts) -> list[tuple]:
    """Returns everything that must not change while a browser shows the page: the parts, and the HTML around their items."""
    return [(part.name,) if isinstance(part, Part) else (part.name, part.opening, part.closing) for part in parts]


def item_changes(old: Items, new: Items) -> dict[str, list]:
    """Returns the names of dropped items, the replaced items with their HTML, and the added items, the last one first. An added item comes
    with its part, the item before which it is inserted, and its HTML. An item that moves is dropped and added again."""
    before, after = dict(old.items), dict(new.items)
    kept = [name for name, _ in old.items if name in after]
    if kept != [name for name, _ in new.items if name in before]:
        kept = []
    stays, added, following = set(kept), [], None
    for name, text in reversed(new.items):
        if name not in stays:
            added.append([new.name, following, text])
        following = name
    dropped = [name for name, _ in old.items if name not in stays]
    return {"drop": dropped, "set": [[name, after[name]] for name in kept if after[name] != before[name]], "add": added}


def changes(old: PageParts, new: PageParts) -> dict | None:
    """Returns the changes to a page, or None if there are none. If more than parts and items have changed, the browser must load the page again."""
    if frame(old) != frame(new):
        return {"reload": True}
    changed = {"drop": [], "set": [], "add": []}
    for before, after in zip(old, new):
        if isinstance(before, Items):
            for kind, values in item_changes(before, after).items():
                changed[kind] += values
        elif before.text != after.text:
            changed["set"].append([after.name, after.html()])
    return changed if any(changed.values()) else None


def event_text(version: int, changes: dict) -> bytes:
    """Returns the event that sends a browser the changes."""
    return f"id: {version}\ndata: {json.dumps(changes)}\n\n".encode("ascii")
