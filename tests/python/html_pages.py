"""Parses HTML pages, so that tests do not depend on their layout."""

import warnings

import bs4

# The text of a page may be a single word. The parser would take a word for a file name.
warnings.filterwarnings("ignore", category=bs4.MarkupResemblesLocatorWarning)
Page = bytes | str


def parsed(page: Page) -> bs4.BeautifulSoup:
    return bs4.BeautifulSoup(page, "html.parser")


def text_of(element: bs4.Tag) -> str:
    """Returns the text of an element, with single spaces where readers see space."""
    return " ".join(element.get_text().split())


def rows_of(part: bs4.Tag) -> list[list[str]]:
    """Returns the texts of the cells of each row, including headings."""
    return [[text_of(cell) for cell in row(["th", "td"])] for row in part("tr")]


def links_of(part: bs4.Tag) -> list[str]:
    return [link["href"] for link in part("a")]
