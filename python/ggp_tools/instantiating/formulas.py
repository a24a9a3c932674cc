"""Formulas over ground atomic sentences. Each formula is stored once, with a number that is larger than the numbers of its parts.

In a turn each role makes exactly one of its moves. So exactly one of a role's `does` sentences is true, and the `or` of all these sentences
is true. The `or` of some of these sentences is equivalent to the negation of the `or` of all other `does` sentences of the role."""

from collections import Counter
from collections.abc import Iterable

from ggp_tools.kif import Expression, grouped, levels, spelled

TRUE, FALSE = 0, 1


class Formulas:
    """Stores formulas as nodes. A node is an atomic sentence, `("not", number)` or `("or", sorted numbers)`. `work` counts the members of
    created formulas."""

    def __init__(self) -> None:
        self.work = 0
        self.nodes, self.numbers, self.sizes, self.depths = [("true",), ("false",)], {}, [0, 0], [0, 0]
        self.role_of, self.moves = {}, {}

    def made(self, node: tuple, size: int, depth: int) -> int:
        number = self.numbers.get(node)
        if number is None:
            number = self.numbers[node] = len(self.nodes)
            self.nodes.append(node)
            self.sizes.append(size)
            self.depths.append(depth)
        return number

    def atom(self, atom: Expression) -> int:
        node = ("atom", atom)
        number = self.numbers.get(node)
        return self.made(node, len(spelled(atom)), levels(atom)) if number is None else number

    def set_moves(self, moves: dict[Expression, Iterable[Expression]]) -> None:
        """Sets the moves of each role, as `does` sentences."""
        for role, sentences in moves.items():
            self.moves[role] = frozenset(map(self.atom, sentences))
            self.role_of.update(dict.fromkeys(self.moves[role], role))

    def no(self, number: int) -> int:
        """Returns the negation of a formula."""
        if number in (TRUE, FALSE):
            return TRUE + FALSE - number
        node = self.nodes[number]
        if node[0] == "not":
            return node[1]
        return self.made(("not", number), self.sizes[number] + 6, self.depths[number] + 1)

    def any(self, numbers: Iterable[int]) -> int:
        """Returns the formula that is true if one of these formulas is true."""
        members = self.alternatives(numbers)
        self.work += len(members)
        members.discard(FALSE)
        if TRUE in members or any(self.no(member) in members for member in members if self.nodes[member][0] == "not"):
            return TRUE
        return FALSE if not members else TRUE if self.has_all_moves(members) else self.listed(members)

    def alternatives(self, numbers: Iterable[int]) -> set[int]:
        """Returns these formulas, but replaces each `or` with its members."""
        return {member for number in numbers for member in (self.members(number) if self.nodes[number][0] == "or" else (number,))}

    def listed(self, members: set[int]) -> int:
        """Returns the `or` of these formulas without simplifying it."""
        if len(members) == 1:
            return next(iter(members))
        members = tuple(sorted(members))
        size = sum(self.sizes[member] for member in members) + len(members) + 4
        return self.made(("or", members), size, max(self.depths[member] for member in members) + 1)

    def has_all_moves(self, members: set[int]) -> bool:
        counts = Counter(self.role_of[member] for member in members if member in self.role_of)
        return any(count == len(self.moves[role]) for role, count in counts.items())

    def all(self, numbers: Iterable[int]) -> int:
        """Returns the formula that is true if all of these formulas are true."""
        return self.no(self.any([self.no(number) for number in numbers]))

    def members(self, number: int) -> tuple[int, ...]:
        """Returns the formulas that this formula joins or negates."""
        node = self.nodes[number]
        return (node[1],) if node[0] == "not" else node[1] if node[0] == "or" else ()

    def parts(self, number: int) -> list[int]:
        """Returns the members of a conjunction, or the formula itself."""
        node = self.nodes[number]
        if node[0] == "not" and self.nodes[node[1]][0] == "or":
            return [self.no(member) for member in self.nodes[node[1]][1]]
        return [number]

    def allowed(self, number: int) -> tuple[Expression, frozenset[int]] | None:
        """If a formula is only about the moves of one role, returns the role and the moves that make the formula true. Otherwise returns None."""
        node = self.nodes[number]
        if node[0] == "not":
            inner = self.allowed(node[1])
            return inner and (inner[0], self.moves[inner[0]] - inner[1])
        members = self.alternatives([number])
        roles = {self.role_of.get(member) for member in members}
        role = roles.pop()
        return None if roles or role is None else (role, frozenset(members))

    def body(self, numbers: Iterable[int]) -> frozenset[int] | None:
        """Returns the formulas of a body as a set. Formulas about the moves of the same role are combined. If the body is never true,
        returns None."""
        formulas, allowed = set(), {}
        for number in numbers:
            for part in self.parts(number):
                moves = self.allowed(part)
                if moves:
                    role, those = moves
                    allowed[role] = allowed.get(role, self.moves[role]) & those
                else:
                    formulas.add(part)
        for those in allowed.values():
            formulas.add(self.any(those))
        formulas.discard(TRUE)
        if FALSE in formulas or any(self.no(formula) in formulas for formula in formulas if self.nodes[formula][0] == "not"):
            return None
        return frozenset(formulas)

    def shortest(self, number: int) -> int:
        """Returns a formula in its shortest form: each `or` of moves of a role is replaced with the negated `or` of the role's other moves,
        wherever this is shorter."""
        node = self.nodes[number]
        if node[0] == "not":
            return self.no(self.shortest(node[1]))
        if node[0] != "or":
            return number
        members = [self.shortest(member) for member in node[1] if member not in self.role_of]
        for role, those in grouped((member for member in node[1] if member in self.role_of), self.role_of.get).items():
            others = self.no(self.listed(self.moves[role].difference(those)))
            together = self.listed(those)
            # The moves of a role stay a separate `or`, because other sentences may share it.
            members.append(others if self.sizes[others] < self.sizes[together] else together)
        return members[0] if len(members) == 1 else self.listed(set(members))

    def expression(self, number: int) -> Expression:
        node = self.nodes[number]
        if node[0] == "atom":
            return node[1]
        if node[0] == "not":
            return "not", self.expression(node[1])
        return "or", *map(self.expression, node[1])

    def replaced(self, number: int, known: dict[int, int], is_simplified: bool) -> int:
        """Replaces each part of a formula that `known` contains. Results are also cached in `known`. If `is_simplified` is
        set, the result is simplified."""
        if number not in known:
            node = self.nodes[number]
            if node[0] == "not":
                known[number] = self.no(self.replaced(node[1], known, is_simplified))
            elif node[0] == "or":
                members = {self.replaced(member, known, is_simplified) for member in node[1]}
                known[number] = self.any(members) if is_simplified else self.listed(members)
            else:
                known[number] = number
        return known[number]
