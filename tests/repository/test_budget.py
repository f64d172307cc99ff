"""What exifnorm_pictures may cost its readers. These numbers are lowered, and never raised: what is new takes the place of something."""

import ast
import io
import tokenize
from pathlib import Path
from typing import Iterator

PACKAGE = Path(__file__).resolve().parents[2] / "python" / "exifnorm_pictures"
STATEMENTS = 19_918  # without docstrings
TOKENS = 239_223  # more on one line is no way to have fewer statements
OVER_TEN, OVER_TWENTY = 54, 0  # functions with more branches
_LAYOUT = (tokenize.COMMENT, tokenize.NL, tokenize.NEWLINE, tokenize.INDENT, tokenize.DEDENT, tokenize.ENDMARKER)
_FUNCTIONS = (ast.FunctionDef, ast.AsyncFunctionDef)
_DOCUMENTED = (ast.Module, ast.ClassDef, *_FUNCTIONS)


def texts() -> "list[str]":
    return [path.read_text("utf-8") for path in sorted(PACKAGE.rglob("*.py"))]


def statements_of(text: str) -> int:
    """The statements of a module, without docstrings.

    >>> statements_of("'''A module.'''\\nif a:\\n    b()\\n")
    2
    """
    nodes = list(ast.walk(ast.parse(text)))
    documented = sum(isinstance(node, _DOCUMENTED) and ast.get_docstring(node) is not None for node in nodes)
    return sum(isinstance(node, ast.stmt) for node in nodes) - documented


def tokens_of(text: str) -> int:
    """The tokens of a module, without comments and layout."""
    return sum(token.type not in _LAYOUT for token in tokenize.generate_tokens(io.StringIO(text).readline))


def complexity_of(function: ast.AST) -> int:
    """McCabe's number of a function, as radon counts it.

    >>> complexity_of(ast.parse("def f():\\n    for a in b:\\n        if a and c:\\n            return [d for d in a if d]"))
    6
    """
    return 1 + sum(map(_branches_at, ast.walk(function)))


def _branches_at(node: ast.AST) -> int:
    if isinstance(node, ast.Try):
        return len(node.handlers) + bool(node.orelse)
    if isinstance(node, ast.BoolOp):
        return len(node.values) - 1
    if isinstance(node, (ast.For, ast.AsyncFor, ast.While)):
        return 1 + bool(node.orelse)
    if isinstance(node, ast.comprehension):
        return 1 + len(node.ifs)
    return isinstance(node, (ast.If, ast.IfExp, ast.Assert))


def complexities() -> "Iterator[tuple[int, str]]":
    """Each function that is in no other one, with its name."""
    for path in sorted(PACKAGE.rglob("*.py")):
        tree = ast.parse(path.read_text("utf-8"))
        inner = {id(one) for node in ast.walk(tree) if isinstance(node, _FUNCTIONS) for one in ast.walk(node) if one is not node}
        for node in ast.walk(tree):
            if isinstance(node, _FUNCTIONS) and id(node) not in inner:
                yield complexity_of(node), f"{path.relative_to(PACKAGE)}: {node.name}"


def test_statements() -> None:
    count = sum(map(statements_of, texts()))
    assert count <= STATEMENTS, f"{count:,} statements: what does the new code replace?"


def test_tokens() -> None:
    count = sum(map(tokens_of, texts()))
    assert count <= TOKENS, f"{count:,} tokens: what does the new code replace?"


def test_branches() -> None:
    found = sorted(complexities(), reverse=True)
    for least, most in ((20, OVER_TWENTY), (10, OVER_TEN)):
        over = [f"{count} {name}" for count, name in found if count > least]
        assert len(over) <= most, f"{len(over)} functions have more than {least} branches, of which {most} may:\n" + "\n".join(over)
