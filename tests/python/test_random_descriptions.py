"""Random descriptions are grounded in four forms of the same game, and wrong forms are detected."""

import shutil
import unittest
from unittest import mock

from ggp_tools.instantiating import rounds
from random_descriptions import Tried

FEW = range(12)
# One of these has a cycle that needs more than one round in its first match.
WITH_A_CYCLE = range(12, 18)


@unittest.skipUnless(shutil.which("gringo"), "gringo is not installed")
class RandomDescriptions(unittest.TestCase):
    def test_four_forms_are_one_game(self):
        tried = {seed: Tried(seed) for seed in FEW}
        self.assertEqual({seed: made.fault for seed, made in tried.items() if made.fault}, {})
        self.assertGreater(sum(made.turns for made in tried.values()), 100)

    def test_a_fault_shows(self):
        with mock.patch.object(rounds, "last_round", lambda circle, rules_for: 0):
            self.assertTrue(any(Tried(seed).fault for seed in WITH_A_CYCLE))
