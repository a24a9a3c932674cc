"""Runs competitions, each in one directory: plans them, plays them with the referee `ggp_manager`, counts their results, shows them and
publishes them."""
