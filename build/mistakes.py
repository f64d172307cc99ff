"""Small mistakes in the statements of Python sources: an operator, a constant, a name, a condition or a statement is another one or isn't there.

What changes nothing by rule is left out: the order of a tuple that is only asked for its members, annotations, names of type variables, how many
results a function keeps, whether a class forbids changes, defaults that every call gives, and None in place of False. What changes no answer has a
reason beside it.
"""

from __future__ import annotations

import ast
from itertools import accumulate
from pathlib import Path
from typing import Any, Dict, Iterable, Iterator, List, NamedTuple, Set, Tuple

SWAPPED: Dict[type, Any] = {
    ast.Eq: ast.NotEq,
    ast.Lt: ast.LtE,
    ast.Gt: ast.GtE,
    ast.In: ast.NotIn,
    ast.Is: ast.IsNot,
    ast.Add: ast.Sub,
    ast.Mult: ast.FloorDiv,
    ast.And: ast.Or,
    ast.BitAnd: ast.BitOr,
}
SWAPPED.update({new: old for old, new in SWAPPED.items()})
# Functions that ask a tuple only for its members, and what a type is made of
MEMBERS = set("all any frozenset fromkeys isdisjoint isinstance issubclass set sorted suppress union".split())
MEMBERS |= {"startswith", "endswith"}
TYPES = set(
    "Any Callable ClassVar Dict FrozenSet Generic IO Iterable Iterator List Literal Mapping Optional Sequence Set Tuple Type Union".split()
)
TYPES |= {"dict", "frozenset", "list", "set", "tuple", "type"}
# Why a mistake changes no answer
SIZE = "a size of which tests show that it changes no answer"
MESSAGE = "the message of an assertion"
FREED = "what is freed sooner changes no answer"


class Mistake(NamedTuple):
    """A text in place of a part of a file."""

    path: Path
    lines: range  # of the statement
    span: slice
    text: str
    names: Set[str]  # what the statement gives a value to
    equal: str = ""  # why it changes no answer

    def planted(self, source: bytes) -> bytes:
        return source[: self.span.start] + self.text.encode() + source[self.span.stop :]

    def words(self, source: bytes) -> str:
        """The place and what is there instead, in one line."""
        line = source[: self.span.start].count(b"\n") + 1
        return f"{self.path}:{line}: {' '.join(source[self.span].decode().split())} ==> {self.text}"


class Known:
    """What all sources of the packages say about a name."""

    def __init__(self, sources: Iterable[bytes]) -> None:
        self.sizes: Set[str] = set()  # the names of sizes that change no answer
        self.siblings: Dict[str, str] = {}
        self.calls: Dict[str, List[ast.Call]] = {}
        self.ordered: Set[str] = set()  # names whose order may matter
        self.unordered: Set[int] = set()  # nodes that are only asked for members
        for source in sources:
            self._add(ast.parse(source))

    def _add(self, tree: ast.AST) -> None:
        members = members_of(tree)
        for node in ast.walk(tree):
            if isinstance(node, ast.ClassDef):
                self.siblings.update(siblings(node))
            elif isinstance(node, ast.Call):
                self.calls.setdefault(name_of(node.func), []).append(node)
            if isinstance(node, (ast.Name, ast.Attribute)) and isinstance(node.ctx, ast.Load) and id(node) not in members:
                self.ordered.add(name_of(node))

    def is_given(self, function: ast.AST, default: ast.expr) -> bool:
        """Whether each call of a function gives the parameter with this default."""
        if not isinstance(function, (ast.FunctionDef, ast.AsyncFunctionDef)):
            return False
        arguments = function.args
        names = [it.arg for it in (*arguments.posonlyargs, *arguments.args)]
        if default in arguments.defaults:
            place = len(names) - len(arguments.defaults) + arguments.defaults.index(default)
            name = names[place]
        else:
            place, name = 1000, arguments.kwonlyargs[arguments.kw_defaults.index(default)].arg
        place -= names[:1] in (["self"], ["cls"])
        calls = self.calls.get(function.name, [])
        return bool(calls) and all(len(it.args) > place or name in [word.arg for word in it.keywords] for it in calls)


def name_of(node: ast.AST) -> str:
    """The last part of a name, as `b` of a.b."""
    return node.id if isinstance(node, ast.Name) else node.attr if isinstance(node, ast.Attribute) else ""


def called(node: ast.AST, is_outside: bool) -> Set[str]:
    """The functions that a node calls by their plain name; of a module those that it calls `is_outside` functions."""
    children = ast.iter_child_nodes(node)
    inner = (it for it in children if not (is_outside and isinstance(it, (ast.FunctionDef, ast.AsyncFunctionDef, ast.Lambda))))
    own = {node.func.id} if isinstance(node, ast.Call) and isinstance(node.func, ast.Name) else set()
    return own.union(*(called(it, is_outside) for it in inner))


def run_by_import(tree: ast.AST) -> Set[str]:
    """The functions of a module that run while it is imported, as those that make its tables."""
    functions = {it.name: it for it in ast.walk(tree) if isinstance(it, (ast.FunctionDef, ast.AsyncFunctionDef))}
    found: Set[str] = set()
    following = called(tree, True) & {*functions}
    while following:
        found |= following
        following = set().union(*(called(functions[it], False) for it in following)) & {*functions} - found
    return found


def asked_for_members(node: ast.AST) -> List[ast.expr]:
    """The expressions in a node of which only the members matter."""
    if isinstance(node, ast.Compare):
        return [it for op, it in zip(node.ops, node.comparators) if isinstance(op, (ast.In, ast.NotIn))]
    if isinstance(node, ast.Call) and name_of(node.func) in MEMBERS:
        return node.args
    return [node.type] if isinstance(node, ast.ExceptHandler) and node.type else []


def members_of(tree: ast.AST) -> Set[int]:
    """The ids of all expressions of a source of which only the members matter."""
    return {id(it) for node in ast.walk(tree) for it in asked_for_members(node)}


def siblings(node: ast.ClassDef) -> Dict[str, str]:
    """The other name that stands for each member of an Enum, and for each attribute of a class with another one of its type."""
    members = [target.id for row in node.body if isinstance(row, ast.Assign) for target in row.targets if isinstance(target, ast.Name)]
    types: Dict[str, List[str]] = {"": members if any("Enum" in ast.unparse(base) for base in node.bases) else []}
    for row in node.body:
        if isinstance(row, ast.AnnAssign) and isinstance(row.target, ast.Name):
            types.setdefault(ast.unparse(row.annotation), []).append(row.target.id)
    return {name: other for alike in types.values() if len(alike) > 1 for name, other in zip(alike, alike[1:] + alike[:1])}


def exchanged(rows: List[Any]) -> Iterator[List[Any]]:
    """The rows of a table with two neighbours exchanged."""
    for at, (first, second) in enumerate(zip(rows, rows[1:])):
        if first is None or second is None or ast.dump(first) != ast.dump(second):
            yield [*rows[:at], second, first, *rows[at + 2 :]]


def variants(node: ast.AST, known: Known) -> Iterator[ast.AST]:
    """The node with a mistake."""
    if isinstance(node, ast.Attribute) and isinstance(node.ctx, ast.Load) and node.attr in known.siblings:
        yield ast.Attribute(node.value, known.siblings[node.attr])
    elif isinstance(node, (ast.Tuple, ast.List)) and isinstance(node.ctx, ast.Load) and id(node) not in known.unordered:
        yield from (type(node)(rows, node.ctx) for rows in exchanged(node.elts))
    elif isinstance(node, ast.Dict):
        yield from (ast.Dict(node.keys, rows) for rows in exchanged(node.values))
    elif isinstance(node, ast.Compare) and type(node.ops[0]) in SWAPPED:
        yield ast.Compare(node.left, [SWAPPED[type(node.ops[0])](), *node.ops[1:]], node.comparators)
    elif isinstance(node, ast.BinOp) and type(node.op) in SWAPPED:
        yield ast.BinOp(node.left, SWAPPED[type(node.op)](), node.right)
    elif isinstance(node, ast.BoolOp):
        yield ast.BoolOp(SWAPPED[type(node.op)](), node.values)
    elif isinstance(node, ast.Constant) and isinstance(node.value, int):
        yield ast.Constant(not node.value if isinstance(node.value, bool) else node.value + 1)
    elif isinstance(node, ast.Constant) and isinstance(node.value, (str, bytes)) and node.value:
        yield ast.Constant(node.value[1:])


def is_type(node: ast.AST) -> bool:
    """Whether an expression is a type, as in an alias, or a decorator that changes no result."""
    if isinstance(node, ast.Call):
        return name_of(node.func) in ("TypeVar", "lru_cache", "dataclass")
    return isinstance(node, ast.Subscript) and name_of(node.value) in TYPES


def parts(node: ast.AST, known: Known) -> Iterator[ast.expr]:
    """The expressions of a statement that run, and may have another value. Inside formatted text Python 3.11 has no positions."""
    for name, value in ast.iter_fields(node):
        for child in value if isinstance(value, list) else [value]:
            if isinstance(child, ast.arguments):
                given = [it for it in (*child.defaults, *child.kw_defaults) if it and not known.is_given(node, it)]
                yield from (inner for it in given for inner in (it, *parts(it, known)))
            elif isinstance(child, ast.AST) and not isinstance(child, (ast.stmt, ast.JoinedStr)) and name not in ("annotation", "returns"):
                if isinstance(child, ast.expr) and not is_type(child):
                    yield child
                if not is_type(child):
                    yield from parts(child, known)


def lines_of(node: ast.stmt) -> range:
    """The lines of a statement without its body."""
    body = getattr(node, "body", None)
    return range(node.lineno, max(body[0].lineno, node.lineno + 1) if body else (node.end_lineno or node.lineno) + 1)


def names_of(node: ast.stmt) -> Set[str]:
    """What an assignment gives a value to."""
    targets = node.targets if isinstance(node, ast.Assign) else [node.target] if isinstance(node, (ast.AnnAssign, ast.AugAssign)) else []
    return {name_of(it) for target in targets for it in ast.walk(target)} - {""}


def left_out(node: ast.stmt) -> Iterator[Tuple[ast.AST, str]]:
    """A condition that is turned round, a guard or a statement that isn't there, and a result that is lost."""
    if isinstance(node, (ast.If, ast.While)):
        yield node.test, f"not ({ast.unparse(node.test)})"
        if isinstance(node.body[0], (ast.Return, ast.Raise, ast.Continue, ast.Break)) and not node.orelse:
            yield node.test, "False"
    elif isinstance(node, ast.Assign) and is_type(node.value):
        return  # an alias, which only annotations have
    elif isinstance(node, (ast.Expr, ast.Assign, ast.AugAssign, ast.Raise, ast.Delete)):
        yield node, "pass"
    elif isinstance(node, ast.Return) and node.value and ast.unparse(node.value) not in ("None", "False"):
        yield node, "return None"


def statements(tree: ast.AST) -> Iterator[ast.stmt]:
    """The statements of a source, without its documentation."""
    for node in ast.walk(tree):
        if isinstance(node, ast.stmt) and not (isinstance(node, ast.Expr) and isinstance(node.value, ast.Constant)):
            yield node


def why_equal(statement: ast.stmt, node: ast.AST, sizes: Set[str]) -> str:
    """Why a mistake in a statement changes no answer, in place of a node; empty if it may change one."""
    if isinstance(statement, ast.Assert) and statement.msg and node in ast.walk(statement.msg):
        return MESSAGE
    is_size = names_of(statement) <= sizes if isinstance(statement, ast.Assign) else False
    is_compared = isinstance(node, ast.Compare) and any(name_of(it) in sizes for it in ast.walk(node))
    if (is_size and node is not statement) or is_compared:
        return SIZE
    if isinstance(statement, ast.Delete) and all(isinstance(it, ast.Name) for it in statement.targets):
        return FREED
    return ""


def mistakes(path: Path, source: bytes, node: ast.stmt, members: Set[int], known: Known) -> List[Mistake]:
    """The mistakes in a statement; `members` are the nodes of its source of which only the members matter."""
    starts, names = [0, *accumulate(map(len, source.splitlines(keepends=True)))], names_of(node)
    is_unordered = isinstance(node, ast.Assign) and not names & known.ordered
    known.unordered = members | {id(node.value)} if is_unordered and isinstance(node, ast.Assign) else members
    made = [(it, f"({ast.unparse(new)})") for it in parts(node, known) for new in variants(it, known)]
    every = [(it, text, why_equal(node, it, known.sizes)) for it, text in (*made, *left_out(node))]
    return [Mistake(path, lines_of(node), span_of(it, starts), text, names, why) for it, text, why in every]


def span_of(node: Any, starts: List[int]) -> slice:
    """The bytes of a node."""
    return slice(starts[node.lineno - 1] + node.col_offset, starts[node.end_lineno - 1] + node.end_col_offset)
