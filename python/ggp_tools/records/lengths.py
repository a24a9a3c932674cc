"""Computes the maximum length of a record. If a record is too long to be parsed as a whole, reads only some of its states."""

import functools
import json
from collections.abc import Iterator

from ggp_tools.kif import Expression, expressions, head_of, spelled

# The records of most games cannot be longer than this, and those of other games rarely are.
USUAL_RECORD = 16 << 20
# The longest call log that `replay` accepts.
LONGEST_ACCOUNT = 256 << 20
# The maximum number of turns. The normal length of an answer is USUAL_ANSWER, or the length of the longest legal move. In total, the
# answers of a player may have BUDGET bytes more than that.
MOST_TURNS, BUDGET, USUAL_ANSWER = 10_000, 1 << 20, 64
# The bytes before and after the states of a record. No string contains these bytes, because quotes are escaped.
STATES, AFTER_STATES = b'"states":[', b'],"strikes":'


def text_length(term: Expression) -> int:
    """Returns the length of a term as a JSON string, with a comma."""
    text = spelled(term)
    return len(text) + text.count('"') + text.count("\\") + 3


@functools.lru_cache(16)
def longest_record(rules: bytes) -> int:
    """Returns an upper bound for the length of a record of a game. It assumes the maximum number of turns, all terms in each state, the longest move
    of each role, and the longest answers."""
    sentences = expressions(rules.decode("latin-1"))
    heads = set(map(head_of, sentences))
    state = sum(text_length(term) for term in {head[1] for head in heads if head[0] in ("init", "next")})
    move = max((text_length(head[2]) for head in heads if head[0] == "legal"), default=0)
    roles = sum(head[0] == "role" for head in heads)
    # In a string, each byte of an answer may take two bytes, and the canonical text may have more spaces than the answer.
    turn = state + roles * (move + 4 * max(move, USUAL_ANSWER))
    return USUAL_RECORD + (MOST_TURNS + 1) * turn + roles * 4 * BUDGET


def without_states(data: bytes) -> bytes:
    """Empties the list of states of a record. The states make up nearly all of the record's length."""
    at, end = data.find(STATES), data.find(AFTER_STATES)
    return data if at < 0 or end < at else data[: at + len(STATES)] + data[end:]


def states_in(data: bytes, most: int | None = None) -> Iterator[list[str]]:
    """Yields the first states of a record, as many as fit into `most` bytes."""
    begin = data.find(STATES) + len(STATES)
    text, index = data[begin : None if most is None else begin + most].decode("latin-1"), 0
    decoder = json.JSONDecoder()
    try:
        while text[index] == "[":
            state, index = decoder.raw_decode(text, index)
            yield state
            index += 1
    except (IndexError, ValueError):
        # The next state is cut off.
        return
