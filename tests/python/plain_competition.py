"""Computes the expected results of a competition in a simple way, following docs/COMPETITION.md. This module shares no code with the package: it
computes everything from plain records with the names of their games."""

from fractions import Fraction


def strikes_out(record, seat):
    """Returns the turn when the player of a role was retired, counted from 1, or None."""
    need = record["strikes"]
    for turn in range(need, len(record["errors"]) + 1):
        if need and all(record["errors"][earlier][seat] != "" for earlier in range(turn - need, turn)):
            return turn
    return None


def counting_goals(record, forfeit):
    """Returns the goals that count, and the roles that forfeited."""
    seats = range(len(record["players"]))
    gone = {seat for seat in seats if forfeit and strikes_out(record, seat)}
    if not gone:
        return list(record["goalValues"]) or None, gone
    if len(seats) > 2 and record["goalValues"]:
        return [0 if seat in gone else goal for seat, goal in enumerate(record["goalValues"])], gone
    left = len(seats) - len(gone)
    return [0 if seat in gone else 100 // left for seat in seats], gone


def beats(goals, gone, seat, other):
    """Returns the points of one role against another (1, 1/2 or 0), or None if both have forfeited."""
    if seat in gone and other in gone:
        return None
    if seat in gone or other in gone:
        return Fraction(int(other in gone))
    return Fraction(1 if goals[seat] > goals[other] else 0) if goals[seat] != goals[other] else Fraction(1, 2)


def verdict(goals, gone, seat):
    """Returns the result of a match for a role: W, D, L or nothing."""
    others = [beats(goals, gone, seat, other) for other in range(len(goals or ())) if other != seat]
    if not others:
        return ""
    if seat in gone or 0 in others:
        return "L"
    return "W" if all(got == 1 for got in others) else "D"


def standings(records, names, forfeit, order, games=None):
    """Returns a row with rank, name and counts for each player that has played, in order."""
    rows = []
    for name in names:
        row = {"player": name, "matches": 0, "goals": [], "W": 0, "D": 0, "L": 0, "moves": 0, "replaced": 0, "absent": 0, "retired": 0, "won_by": 0, "lost_by": 0}
        for record in records:
            if name not in record["players"] or games and record["game"] not in games:
                continue
            seat = record["players"].index(name)
            goals, gone = counting_goals(record, forfeit)
            wrong = sum(turn[seat] != "" for turn in record["errors"])
            row["matches"] += 1
            row["goals"] += [goals[seat]] if goals else []
            row["moves"] += len(record["errors"])
            row["replaced"] += wrong
            row["absent"] += wrong == len(record["errors"]) > 0
            row["retired"] += strikes_out(record, seat) is not None
            was = verdict(goals, gone, seat)
            if was:
                row[was] += 1
                row["won_by"] += was == "W" and bool(gone)
                row["lost_by"] += seat in gone
        row["mean"] = float(round(Fraction(sum(row["goals"]), len(row["goals"])), 2)) if row["goals"] else None
        row["points"] = row["W"] + row["D"] / 2
        rows += [row] if row["matches"] else []
    keys = {"goals": lambda row: (row["mean"] or 0, row["W"], -row["L"]), "points": lambda row: (row["points"], row["mean"] or 0, row["W"], -row["L"])}
    return placed(rows, keys[order])


def placed(rows, key):
    """Returns the rows in order, the best first, each with its rank: one more than the number of better rows."""
    for row in rows:
        row["place"] = 1 + sum(key(other) > key(row) for other in rows)
    return sorted(rows, key=lambda row: row["place"])


def crosstable(records, forfeit, games=None):
    """Returns, for each pair of players, the points of the first against the second, and the number of matches of the pair."""
    found = {}
    for record in records:
        goals, gone = counting_goals(record, forfeit)
        if games and record["game"] not in games or goals is None:
            continue
        for seat, first in enumerate(record["players"]):
            for other, second in enumerate(record["players"]):
                got = beats(goals, gone, seat, other) if seat != other else None
                if got is not None:
                    points, met = found.get((first, second), (0, 0))
                    found[first, second] = points + got, met + 1
    return found


# ---- Rounds --------------------------------------------------------------------------------------


def points_of(records, forfeit):
    """Returns the points of each player, and the goals."""
    points, goals = {}, {}
    for record in records:
        counting, gone = counting_goals(record, forfeit)
        for seat, name in enumerate(record["players"]):
            points[name] = points.get(name, 0) + {"W": 1, "D": 0.5}.get(verdict(counting, gone, seat), 0)
            goals[name] = goals.get(name, 0) + (counting[seat] if counting else 0)
    return points, goals


def swiss_standings(names, games, rounds, records, forfeit):
    """Returns the players in order after some rounds, each with points and Buchholz score. A round has pairs, and the player with the bye
    or None."""
    points, _ = points_of(records, forfeit)
    total = {name: points.get(name, 0) + sum(2 * games for _, bye in rounds if bye == name) for name in names}
    buchholz = {name: sum(total[(set(pair) - {name}).pop()] for pairs, _ in rounds for pair in pairs if name in pair) for name in names}
    return sorted(names, key=lambda name: (-total[name], -buchholz[name], names.index(name))), total, buchholz


def swiss_pairs(names, games, rounds, records, forfeit):
    """Returns the pairs of the next round, and the player with the bye."""
    order, _, _ = swiss_standings(names, games, rounds, records, forfeit)
    bye = None
    if len(order) % 2:
        had = {name: sum(1 for _, other in rounds if other == name) for name in order}
        bye = [name for name in order if had[name] == min(had.values())][-1]
        order = [name for name in order if name != bye]

    def met(first, second):
        return sum(1 for pairs, _ in rounds for pair in pairs if set(pair) == {first, second})

    pairs = []
    while order:
        top, *others = order
        least = min(met(top, other) for other in others)
        partner = [other for other in others if met(top, other) == least][0]
        pairs.append((top, partner))
        order = [name for name in others if name != partner]
    for low in reversed(range(len(pairs))):
        if not met(*pairs[low]):
            continue
        above, below = list(reversed(range(low))), list(range(low + 1, len(pairs)))
        for high in above + below:
            (first, second), (third, fourth) = pairs[high], pairs[low]
            crossed = ((first, third), (second, fourth)), ((first, fourth), (second, third))
            fresh = [new for new in crossed if not met(*new[0]) and not met(*new[1])]
            if fresh:
                pairs[high], pairs[low] = fresh[0]
                break
    return pairs, bye


def knockout_winner(pair, records, names, forfeit):
    points, goals = points_of([record for record in records if set(record["players"]) == set(pair)], forfeit)
    return sorted(pair, key=lambda name: (-points.get(name, 0), -goals.get(name, 0), names.index(name)))[0]


def knockout_places(names):
    """Returns the players in the order of the bracket: in each half, quarter and so on, the best seed meets the worst. An empty place is
    None."""
    size = 1
    while size < len(names):
        size *= 2

    def part(seed, width):
        # If a part of the bracket has a seed, its opponent has the seed 2 * width - 1 - seed. Each of the two begins a half of the part.
        return [seed] if width == size else part(seed, 2 * width) + part(2 * width - 1 - seed, 2 * width)

    return [names[seed] if seed < len(names) else None for seed in part(0, 1)]


def knockout_round(names, by_round, forfeit):
    """Returns the pairs and the byes of the next round, from the records of all earlier rounds."""
    places = knockout_places(names)
    for records in by_round:
        halves = [(places[at], places[at + 1]) for at in range(0, len(places), 2)]
        places = [first if second is None else second if first is None else knockout_winner((first, second), records, names, forfeit) for first, second in halves]
    halves = [(places[at], places[at + 1]) for at in range(0, len(places), 2)]
    return [pair for pair in halves if None not in pair], [first or second for first, second in halves if None in (first, second)]
