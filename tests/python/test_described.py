"""Records are checked against a description only if `plan` made the rules of the game from this description."""

import os
import shutil
import subprocess
import sys

from ggp_tools.competition.described import description_of
from ggp_tools.competition.plan import not_planned
from ggp_tools.descriptions.loading import sum_of
from live_support import plan_in
from support import GAMES, TOP, InFolder

GENERAL, GROUND = b"(role ?x)", b"(role x)"


class Descriptions(InFolder):
    def test_only_the_planned_description_is_returned(self):
        plan = plan_in(str(self.folder), ["ann", "bob"])
        game, sums = plan.competition.games[0], plan.folder.description_sums
        file = plan.folder.description(game)
        other = f"{file} is not the description that the rules of heap were made from"
        for planned, text, wanted in (
            (GENERAL, GENERAL, (GENERAL, None)), (GROUND, GROUND, (None, None)), (GENERAL, GENERAL + b" ", (None, other)), (GROUND, GENERAL, (None, other)),
            (GENERAL, None, (None, f"{file} can't be read: No such file or directory")), (None, GENERAL, (None, str(not_planned(sums)))),
        ):
            with self.subTest(planned=planned, text=text):
                sums.write_text(f"{sum_of(planned)}  heap.kif\n" if planned else "wrong")
                file.unlink(missing_ok=True)
                if text:
                    file.write_bytes(text)
                self.assertEqual(description_of(plan, game), wanted)

    def test_records_are_compared_without_the_commands_next_to_the_package(self):
        shutil.copytree(TOP / "python/ggp_tools", self.folder / "ggp_tools")
        call = f"from ggp_tools.competition.described import *; print(comparisons(pathlib.Path({str(GAMES / 'countdown.kif')!r}), [b'{{}}\\n'])[0][:14])"
        done = subprocess.run([sys.executable, "-B", "-c", call], cwd="/", env={**os.environ, "PYTHONPATH": str(self.folder)}, capture_output=True, text=True)
        self.assertEqual((done.stdout, done.stderr), ("not followed: \n", ""))
