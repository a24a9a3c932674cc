"""Checks records against the published description of a game. Except for the parser, this package shares no code with the grounding or
with the referee."""
