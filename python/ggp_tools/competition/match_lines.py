"""Makes the lines of matches.jsonl, one for each match that counts."""

import io
from collections.abc import Mapping, Sequence

from ggp_tools.competition.known import Known, sum_of_parts
from ggp_tools.competition.plan import Plan, sums_of
from ggp_tools.competition.results import Result, match_line, read_record
from ggp_tools.competition.side_by_side import made_side_by_side
from ggp_tools.match_log import last_run
from ggp_tools.records.exchanges import Exchanges, broken_answers
from ggp_tools.records.match_logs import logged
from ggp_tools.records.record import record_sum

Sums = Mapping[str, str | None]


def key_of(plan: Plan, result: str, sums: Sums, log: bytes) -> str:
    """Returns the checksum of everything that determines the line of a match. `result` is the key under which the result of the match is cached."""
    return sum_of_parts(repr((result, sums, plan.competition.forfeit)).encode(), log)


def line_of(plan: Plan, result: Result, sums: Sums, key: str) -> tuple[str, bytes]:
    """Returns the checksum of everything that determines the line of a match in matches.jsonl, and then the line. `key` is the key under which the
    result is cached."""
    match = result.match
    data, log = plan.read_record(match), plan.folder.whole_log(match.id)
    sums, run = {**sums, "record": record_sum(data)}, logged(last_run(io.BytesIO(log), match.id))
    return key_of(plan, key, sums, log), match_line(result, sums, run, broken_answers(Exchanges(read_record(data)), run.broken))


def matches_text(plan: Plan, results: Sequence[Result], known: Known | None = None) -> bytes:
    path, lines, left = plan.folder.description_sums, {}, []
    descriptions = sums_of(path) if path.is_file() else {}
    for result in results:
        match = result.match
        key, record = known.checked.get(match.id, ("", "")) if known else ("", "")
        sums = {"record": record, "rules": plan.rules[match.game].sum, "description": descriptions.get(f"{match.game}.kif")}
        line = known.get("lines", key_of(plan, key, sums, plan.folder.whole_log(match.id))) if key else None
        if line is None:
            left.append((plan, result, sums, key))
        lines[match.id] = line
    for (_, result, _, is_known), (key, line) in zip(left, made_side_by_side(line_of, left)):
        lines[result.match.id] = line
        if is_known:
            known.put("lines", key, line)
    return b"".join(lines.values())
