"""Checks game descriptions: whether the referee accepts them, what is suspicious in them, and how random matches end."""
