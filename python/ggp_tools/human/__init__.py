"""A player that lets a person make its moves in a browser."""
