"""The plots of pages depend only on the numbers, and are the same on each computer."""

import re
import unittest
import xml.dom.minidom

from ggp_tools.competition.plots import BARS, MOST_POINTS, MOST_ROWS, bar_of, goals_plot, rating_plot, sampled, ticks, times_plot
from ggp_tools.competition.ratings import rated
from ggp_tools.competition.table import Line


def circles(plot):
    return [(float(x), float(y)) for x, y in re.findall(r'<circle class="[a-z]+" cx="([0-9.]+)" cy="([0-9.]+)"', plot)]


class Plots(unittest.TestCase):
    def test_ratings(self):
        points = {("a", "b"): 7, ("b", "a"): 3, ("b", "<c>"): 6, ("<c>", "b"): 4}
        lines = [Line(name, matches=1, rating=rating) for name, rating in rated(["a", "b", "<c>"], points).items()]
        plot = rating_plot(lines)
        xml.dom.minidom.parseString(plot)
        places = [x for x, _ in circles(plot)]
        self.assertEqual((len(places), places), (3, sorted(places, reverse=True)))
        self.assertIn("&lt;c&gt;", plot)
        self.assertEqual(rating_plot(lines[:1]), "")
        self.assertEqual(rating_plot([Line("a"), Line("b")]), "")
        # Each player has a row of 20, and the last row has the ticks.
        plot = rating_plot(lines * MOST_ROWS)
        self.assertEqual((len(circles(plot)), re.findall('viewBox="([^"]+)"', plot)), (MOST_ROWS, ["0 0 640 2020.0"]))

    def test_ticks(self):
        wanted = ((0, 4), [0, 1, 2, 3, 4]), ((0, 5), [0, 2, 4]), ((-7, 12), [-5, 0, 5, 10]), ((0, 49), [0, 10, 20, 30, 40]), ((3, 3), [3])
        for ends, values in wanted:
            self.assertEqual(list(ticks(*ends)), values, ends)

    def test_goals(self):
        plot = goals_plot([0, 100, 50])
        xml.dom.minidom.parseString(plot)
        heights = [y for _, y in circles(plot)]
        self.assertEqual(heights, [100.0, 10.0, 55.0])
        self.assertIn('<polyline class="line" points="34.0,100.0 332.0,55.0 630.0,55.0"/>', plot)
        self.assertIn("goals of 3 matches, and their mean, at last 50.0", goals_plot([100, 50, 0]))
        self.assertEqual(re.findall('y="([0-9.]+)" text-anchor="end">([0-9]+)<', plot), [("104.0", "0"), ("59.0", "50"), ("14.0", "100")])
        self.assertEqual((goals_plot([]), goals_plot([100])), ("", ""))
        self.assertLess(len(goals_plot([0, 100] * 50_000)), 40_000)

    def test_what_is_sampled(self):
        self.assertEqual(sampled([5.0, 6.0]), [(1, 5.0), (2, 6.0)])
        found = sampled([float(value) for value in range(1_001)])
        self.assertLessEqual(len(found), MOST_POINTS)
        self.assertEqual(found[-1], (1_001, 1_000.0))

    def test_times(self):
        self.assertEqual([bar_of(milliseconds) for milliseconds in (0, 1, 2, 3, 4, 1_023, 1_024, 10**9)], [0, 1, 2, 2, 3, 10, 11, BARS - 1])
        plot = times_plot([0, 3, 1, *[0] * (BARS - 3)])
        xml.dom.minidom.parseString(plot)
        heights = [float(high) for high in re.findall(r'height="([0-9.]+)"/>', plot)]
        self.assertEqual(heights, [80.0, 26.7])
        # A label is at the right end of its bar.
        self.assertIn('<text x="78.9" y="114.0" text-anchor="middle">2 ms</text>', plot)
        self.assertEqual(re.findall(">([0-9]+ m?s)<", plot), ["2 ms", "8 ms", "32 ms", "128 ms", "512 ms", "2 s", "8 s", "32 s"])
        self.assertEqual(times_plot([0] * BARS), "")
