"""Grounds games: makes a ground GDL file from a GDL file with variables."""
