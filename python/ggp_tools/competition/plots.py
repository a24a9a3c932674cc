"""Makes small SVG plots for pages: ratings with their intervals, goals over time, and response times."""

import itertools
import typing

from ggp_tools.competition.page_parts import html_of
from ggp_tools.competition.table import Line

if typing.TYPE_CHECKING:
    from markupsafe import Markup

WIDTH, ROW, MARGIN = 640, 20, 8
NAMES, FIGURES = 150, 90
MOST_ROWS, MOST_POINTS = 100, 200
HEIGHT = 120
# Each bar of response times ends at twice the milliseconds of the previous bar. The last bar counts all longer times.
BARS = 18


def drawn(plot: str, **values: object) -> "Markup":
    return html_of("plots", plot, width=WIDTH, **values)


def rating_plot(lines: list[Line]) -> str:
    """Plots the ratings of players with their intervals. If fewer than two players have ratings, returns an empty string."""
    rated = [line for line in lines if line.rating and line.rating.rating is not None][:MOST_ROWS]
    if len(rated) < 2:
        return ""
    ends = [(round(row.rating.rating - row.rating.half), round(row.rating.rating + row.rating.half)) for row in rated]
    least, most = min(low for low, _ in ends), max(high for _, high in ends)
    across = WIDTH - NAMES - FIGURES

    def place(value: float) -> float:
        return NAMES + across * (value - least) / max(1, most - least)

    rows = [
        {"left": NAMES - MARGIN, "y": ROW * (at + 0.5), "player": row.player[:20], "low": place(low), "high": place(high)}
        | {"x": place(round(row.rating.rating)), "rating": round(row.rating.rating), "half": round(row.rating.half)}
        for at, (row, (low, high)) in enumerate(zip(rated, ends))
    ]
    return drawn("ratings", height=ROW * (len(rated) + 1), rows=rows, ticks=[(place(value), str(value)) for value in ticks(least, most)])


def ticks(least: int, most: int) -> range:
    """Returns at most five round values between two values."""
    step = next(size for power in itertools.count() for size in (10**power, 2 * 10**power, 5 * 10**power) if (most - least) // size < 5)
    return range(-(-least // step) * step, most + 1, step)


def sampled(values: list[float]) -> list[tuple[int, float]]:
    """Returns as many values as fit into a plot, including the last value, each with its number in `values`, counted from 1."""
    step = max(1, -(-len(values) // MOST_POINTS))
    return [(at + 1, value) for at, value in enumerate(values) if (len(values) - 1 - at) % step == 0]


def goals_plot(goals: list[int]) -> str:
    """Plots the goals of matches in their order as dots, and the running mean as a line. If there are fewer than two matches, returns an empty
    string."""
    if len(goals) < 2:
        return ""
    means = [total / count for count, total in enumerate(itertools.accumulate(goals), 1)]

    def place(count: int, goal: float) -> tuple[float, float]:
        return 34 + (WIDTH - 44) * (count - 1) / (len(goals) - 1), 10 + (HEIGHT - 30) * (100 - goal) / 100

    lines = [(place(1, goal)[1], str(goal)) for goal in (0, 50, 100)]
    dots, line = ([place(*pair) for pair in sampled(values)] for values in (list(map(float, goals)), means))
    return drawn("goals", height=HEIGHT, lines=lines, dots=dots, means=line, count=len(goals), mean=means[-1])


def bar_of(milliseconds: int) -> int:
    """Returns the bar of a response time. Bar 0 has times below one millisecond."""
    return min(BARS - 1, milliseconds.bit_length())


def spelt_time(milliseconds: int) -> str:
    return f"{milliseconds} ms" if milliseconds < 1_000 else f"{milliseconds // 1_000} s"


def times_plot(counts: list[int]) -> str:
    """Plots how many response times fall into each bar. If there are no response times, returns an empty string."""
    if not any(counts):
        return ""
    most, wide = max(counts), (WIDTH - 20) / BARS
    bars = [(10 + wide * at, wide, (HEIGHT - 40) * count / most, count) for at, count in enumerate(counts) if count]
    marks = [(10 + wide * (at + 1), spelt_time(1 << at)) for at in range(1, BARS - 1, 2)]
    return drawn("times", height=HEIGHT, bars=bars, ticks=marks, count=sum(counts))
