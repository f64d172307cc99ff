"""The folders of exifnorm_pictures are floors, and so are its calls: a module imports from its own floor and those below it, and only cli knows
the command line, prints, and knows how a process ends."""

import ast
from pathlib import Path
from typing import Iterator, Tuple

FOLDER = Path(__file__).resolve().parents[2] / "python/exifnorm_pictures"
FLOORS = (
    "model files xmp fields extract judge refusals catalogue scan comparison report export picture api many cli".split()
)  # the lowest one first
ENDS = {"sys.exit", "exit", "quit", "SystemExit", "sys.stdout.write"}


def modules() -> Iterator[Tuple[str, str, ast.Module]]:
    """The path, the floor and the syntax of each module."""
    for path in FOLDER.glob("**/*.py"):
        where = path.relative_to(FOLDER)
        floor = where.with_suffix("").parts[0]
        if not floor.startswith("__"):
            yield str(where), floor, ast.parse(path.read_bytes())


def test_no_module_imports_from_a_floor_above() -> None:
    wrong = []
    for path, floor, tree in modules():
        package = (FOLDER.name, *Path(path).parts[:-1])
        for node in ast.walk(tree):
            if isinstance(node, (ast.Import, ast.ImportFrom)):
                base = package[: len(package) + 1 - node.level] if getattr(node, "level", 0) else ()
                for name in node.names:
                    to = [*base, *(getattr(node, "module", "") or "").split("."), *name.name.split(".")]
                    to = [word for word in to if word]
                    is_above = to[0] == FOLDER.name and FLOORS.index(to[1]) > FLOORS.index(floor)
                    if is_above or (to[0] == "argparse" and floor != "cli"):
                        wrong.append(f"{path}, line {node.lineno}: {ast.unparse(node)}")
    assert not wrong, "imports from a floor above:\n" + "\n".join(sorted(wrong))


def test_only_the_command_line_prints_and_ends() -> None:
    """A module that is run by itself may print a document; a line on standard error is a message and no output."""
    wrong = []
    for path, floor, tree in modules():
        alone = [node for node in tree.body if isinstance(node, ast.If) and ast.unparse(node.test) == "__name__ == '__main__'"]
        allowed = {id(node) for part in alone for node in ast.walk(part)}
        for node in ast.walk(tree):
            if floor == "cli" or id(node) in allowed or not isinstance(node, ast.Call):
                continue
            called = ast.unparse(node.func)
            prints = called == "print" and not any(word.arg == "file" for word in node.keywords)
            if prints or called in ENDS:
                wrong.append(f"{path}, line {node.lineno}: {ast.unparse(node)}")
    assert not wrong, "below cli, and prints or ends the process:\n" + "\n".join(sorted(wrong))


def test_only_a_command_knows_its_line() -> None:
    """Its `run` makes records of the options, which the functions below it take; nobody writes to the parsed line, or passes it on. `main` and
    `parser` make it."""
    wrong = []
    for path, _, tree in modules():
        if path in ("cli/main.py", "cli/parser.py"):
            continue
        for function in (node for node in ast.walk(tree) if isinstance(node, ast.FunctionDef)):
            if path == "cli/options.py" or (path.startswith("cli/") and function.name == "run"):
                wrong += [f"{path}, line {it.lineno}: {ast.unparse(it)}" for it in ast.walk(function) if _uses_the_line(it)]
            elif any(
                "Namespace" in ast.unparse(it.annotation) for it in ast.walk(function.args) if isinstance(it, ast.arg) and it.annotation
            ):
                wrong.append(f"{path}, line {function.lineno}: {function.name} takes the line")
    assert not wrong, "knows the command line, or writes to it:\n" + "\n".join(sorted(wrong))


def _uses_the_line(node: ast.AST) -> bool:
    """Whether a part of `run` writes to `arguments`, or passes them on other than to make a record."""
    if isinstance(node, ast.Attribute):
        return ast.unparse(node.value) == "arguments" and not isinstance(node.ctx, ast.Load)
    if not isinstance(node, ast.Call) or ast.unparse(node.func) in ("vars", "group_of", "groups_of"):
        return False
    given = [*node.args, *(word.value for word in node.keywords)]
    return any(isinstance(it, ast.Name) and it.id == "arguments" for it in given)
