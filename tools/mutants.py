"""Generates mutants of Python code. Each has one small error that a programmer could make, for example an inverted comparison, a bound that is off by
one, a changed constant, a missing call, or two swapped arguments."""
import ast
import copy
import difflib
from collections.abc import Iterator
from dataclasses import dataclass

TURNED = {
    ast.Lt: (ast.LtE, ast.Gt), ast.LtE: (ast.Lt, ast.GtE), ast.Gt: (ast.GtE, ast.Lt), ast.GtE: (ast.Gt, ast.LtE), ast.Eq: (ast.NotEq,),
    ast.NotEq: (ast.Eq,), ast.In: (ast.NotIn,), ast.NotIn: (ast.In,), ast.Is: (ast.IsNot,), ast.IsNot: (ast.Is,),
}
EXCHANGED = {
    ast.Add: ast.Sub, ast.Sub: ast.Add, ast.Mult: ast.Add, ast.Div: ast.Mult, ast.FloorDiv: ast.Mult, ast.Mod: ast.FloorDiv,
    ast.BitAnd: ast.BitOr, ast.BitOr: ast.BitAnd,
}
OTHER_CALLS = {"min": "max", "max": "min", "any": "all", "all": "any", "set": "list", "reversed": "iter"}
# Methods that return a value of the same type.
SAME_KIND = ("strip", "lstrip", "rstrip", "lower", "upper", "copy", "removeprefix", "removesuffix")
# Swapping the arguments of these functions changes nothing, or causes an error in every run.
SHOWN_AT_ONCE = ("min", "max", "range", "print", "isinstance", "map", "filter", "decode", "encode", "sub", "get", "getattr", "open")
# The fields of a node that contain types and decorators, which are not mutated.
IGNORED = ("annotation", "returns", "decorator_list")
FUNCTIONS = (ast.FunctionDef, ast.AsyncFunctionDef)


@dataclass(frozen=True)
class Mutant:
    """A mutated module: the function or class of the change, the difference, and the text of the module."""

    where: str
    change: str
    text: str

    def __str__(self) -> str:
        return f"{self.where or 'the module'}: {self.change}"


@dataclass(frozen=True)
class Slot:
    """A place in a tree: the field of a node, or an element of the list in that field, with the names of the enclosing definitions."""

    parent: ast.AST
    field: str
    index: int | None
    where: tuple[str, ...]

    def read(self) -> ast.AST:
        value = getattr(self.parent, self.field)
        return value if self.index is None else value[self.index]

    def write(self, node: ast.AST) -> None:
        if self.index is None:
            setattr(self.parent, self.field, node)
        else:
            getattr(self.parent, self.field)[self.index] = node

    def is_last_of_function(self) -> bool:
        return isinstance(self.parent, FUNCTIONS) and self.index == len(self.parent.body) - 1


def slots(node: ast.AST, where: tuple[str, ...] = ()) -> Iterator[Slot]:
    """Yields every place of a tree that has executable code, in the order of the text."""
    if isinstance(node, (*FUNCTIONS, ast.ClassDef)):
        where = (*where, node.name)
    for field, value in ast.iter_fields(node):
        for index, child in enumerate(value) if isinstance(value, list) else [(None, value)]:
            if isinstance(child, ast.AST) and field not in IGNORED and not is_prose(node, child):
                yield Slot(node, field, index, where)
                yield from slots(child, where)


def is_prose(parent: ast.AST, child: ast.AST) -> bool:
    """Returns whether a node is a docstring, or the text of an f-string."""
    is_text = isinstance(child, ast.Expr) and isinstance(child.value, ast.Constant) and isinstance(child.value.value, str)
    return is_text or isinstance(parent, ast.JoinedStr) and isinstance(child, ast.Constant)


def is_word(node: ast.AST) -> bool:
    return isinstance(node, ast.Constant) and isinstance(node.value, (str, bytes)) and len(node.value) > 0


def with_item(node: ast.AST, field: str, index: int, item: ast.AST) -> ast.AST:
    """Returns a copy of a node with one element of a list replaced."""
    new = copy.deepcopy(node)
    getattr(new, field)[index] = item
    return new


def other_comparisons(node: ast.Compare) -> Iterator[ast.AST]:
    """Yields a comparison with each of its operators replaced, and with the last character of each compared word removed."""
    for index, operator in enumerate(node.ops):
        yield from (with_item(node, "ops", index, other()) for other in TURNED[type(operator)])
    for index, compared in enumerate(node.comparators):
        if is_word(compared):
            yield with_item(node, "comparators", index, ast.Constant(compared.value[:-1]))


def other_constants(value: object) -> list[object]:
    if isinstance(value, bool):
        return [not value]
    if isinstance(value, int):
        return [value + 1, *([value - 1] if value else [])]
    return [value * 2 + 1] if isinstance(value, float) else []


def other_calls(node: ast.Call) -> Iterator[ast.AST]:
    """Yields mutants of a call: two neighbouring arguments swapped, a bound of a range moved, the opposite function, or no call."""
    name = node.func.id if isinstance(node.func, ast.Name) else getattr(node.func, "attr", "")
    for index in range(1, len(node.args)):
        if name not in SHOWN_AT_ONCE and not any(isinstance(argument, ast.Starred) for argument in node.args[index - 1 : index + 1]):
            yield with_item(with_item(node, "args", index, node.args[index - 1]), "args", index - 1, node.args[index])
    if isinstance(node.func, ast.Attribute) and name in SAME_KIND:
        yield node.func.value
    elif isinstance(node.func, ast.Name) and name in OTHER_CALLS:
        yield ast.Call(ast.Name(OTHER_CALLS[name]), node.args, [] if OTHER_CALLS[name] == "list" else node.keywords)
    elif isinstance(node.func, ast.Name) and name == "range":
        yield from (with_item(node, "args", index, more_by_one(bound)) for index, bound in enumerate(node.args) if not isinstance(bound, ast.Constant))


def more_by_one(node: ast.expr) -> ast.expr:
    return ast.BinOp(node, ast.Add(), ast.Constant(1))


def other_slices(node: ast.Slice) -> Iterator[ast.AST]:
    """Yields a slice with each of its bounds moved by one. Constants are mutated elsewhere."""
    for name in ("lower", "upper"):
        bound = getattr(node, name)
        if bound is not None and not isinstance(bound, (ast.Constant, ast.UnaryOp)):
            yield ast.Slice(**{"lower": node.lower, "upper": node.upper, "step": node.step, name: more_by_one(bound)})


def is_dropped(slot: Slot, node: ast.stmt) -> bool:
    """Returns whether a mutant drops a statement. A mutant without the last return of a function, or without an assignment in `__init__`, would fail
    in every run."""
    match node:
        case ast.Expr(value=ast.Call() | ast.Await() | ast.Yield() | ast.YieldFrom()) | ast.Raise() | ast.Continue() | ast.Break() | ast.Delete():
            return True
        case ast.Return(value=value):
            return value is not None and not slot.is_last_of_function()
        case ast.Assign(targets=[ast.Attribute() | ast.Subscript()]):
            return slot.where[-1:] != ("__init__",)
    return False


def joins_text(node: ast.BinOp) -> bool:
    return any(isinstance(side, (ast.JoinedStr, ast.List, ast.Tuple)) or is_word(side) for side in (node.left, node.right))


def variants(slot: Slot) -> Iterator[ast.AST]:
    """Yields the mutated versions of a place."""
    node = slot.read()
    match node:
        case ast.stmt() if is_dropped(slot, node):
            yield ast.Pass()
        case ast.AugAssign(op=op) if type(op) in EXCHANGED:
            yield ast.AugAssign(node.target, EXCHANGED[type(op)](), node.value)
        case ast.Compare():
            yield from other_comparisons(node)
        case ast.BoolOp(values=values):
            lefts = [values[:index] + values[index + 1 :] for index in range(len(values))]
            yield from (left[0] if len(left) == 1 else ast.BoolOp(node.op, left) for left in lefts)
        case ast.UnaryOp(op=ast.Not()):
            yield node.operand
        case ast.Constant(value=value):
            yield from (ast.Constant(other) for other in other_constants(value))
        case ast.BinOp(op=op) if type(op) in EXCHANGED and not joins_text(node):
            yield ast.BinOp(node.left, EXCHANGED[type(op)](), node.right)
        case ast.Slice():
            yield from other_slices(node)
        case ast.Call():
            yield from other_calls(node)
    if slot.field in ("test", "guard") and not isinstance(node, (ast.Compare, ast.BoolOp, ast.UnaryOp)):
        yield ast.UnaryOp(ast.Not(), node)
    if slot.field == "ifs":
        yield ast.Constant(True)


def difference(plain: str, text: str) -> str:
    """Returns the difference between two texts, in one line."""
    lines = difflib.unified_diff(plain.splitlines(), text.splitlines(), lineterm="", n=0)
    return " | ".join(line[0] + line[1:].strip() for line in lines if not line.startswith(("---", "+++", "@@")))


def mutants(source: str) -> Iterator[Mutant]:
    """Yields all mutants of a module."""
    tree = ast.parse(source)
    plain = ast.unparse(tree)
    texts = {plain}
    for slot in [*slots(tree)]:
        node = slot.read()
        for variant in [*variants(slot)]:
            slot.write(ast.fix_missing_locations(ast.copy_location(variant, node)))
            text = ast.unparse(tree)
            slot.write(node)
            if text not in texts:
                texts.add(text)
                yield Mutant(".".join(slot.where), difference(plain, text), text)
