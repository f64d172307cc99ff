#!/usr/bin/env python3
"""Prints the pages, the tables and the parts of headers that are made from sources.

  packaging/pages.py            writes them
  packaging/pages.py --check    names those that differ from what it would write, and ends with 1
"""

from __future__ import annotations

import argparse
import json
import re
import sys
from pathlib import Path
from typing import Any, Callable, Dict, Iterator, List, Sequence, Tuple

import crates_page
import header
import names
import refusals_page

TOP = Path(__file__).resolve().parent.parent
sys.path.insert(0, str(TOP / "python"))

from exifnorm_pictures.cli import parser, topics  # noqa: E402
from exifnorm_pictures.export.rows import SCHEMA as TABLES  # noqa: E402
from exifnorm_pictures.fields import rules  # noqa: E402

OBJECTS = TOP / "python" / "exifnorm_pictures" / "output.schema.json"
PAGES: Dict[str, Callable[[], str]] = {
    "crates/px_c/include/exifnorm.h": header.printed,
    "crates/px_c/include/exifnorm_names.h": names.header,
    "crates/README.md": crates_page.page,
    "docs/REFUSALS.md": refusals_page.page,
    "docs/exifnorm-pictures.1": lambda: manual(),
}
WITH_TABLES = ("docs/CATALOGUE.md", "docs/FORMAT.md", "docs/JSON.md")
CAUSES = TOP / "crates" / "px_bytes" / "src" / "causes.rt"
# a comment that names a table, and the table
MARKED = re.compile(r"(<!-- printed: ([\w-]+) -->\n\n)(?:\|.*\n)*")
Rows = Iterator[Tuple[str, str]]


def table(title: str, rows: Rows) -> str:
    r"""A table of names, of which those with the same words share a row.

    >>> table("Key", iter([("a", "one"), ("b", "two"), ("c", "one")]))
    '| Key | Value |\n|---|---|\n| `a`, `c` | one |\n| `b` | two |\n'
    """
    names: Dict[str, List[str]] = {}
    for name, words in rows:
        names.setdefault(words, []).append(f"`{name}`")
    cells = [f"| {', '.join(several)} | {words} |\n" for words, several in names.items()]
    return f"| {title} | Value |\n|---|---|\n" + "".join(cells)


def keys(schema: Dict[str, Any], before: str = "") -> Rows:
    """The keys of an object that have a description, with those inside them. The name of a list ends with [].

    >>> list(keys({"properties": {"a": {"description": "of:", "enum": ["x", "y"]}, "b": {}}}))
    [('a', 'of: `x` or `y`')]
    """
    for name, value in schema.get("properties", {}).items():
        name += "[]" * ("array" in value.get("type", ""))
        if words := value.get("description"):
            if words.endswith(":"):
                *some, last = (f"`{it}`" for it in value["enum"])
                words += f" {', '.join(some)} or {last}"
            yield before + name, words
        yield from keys(value.get("items", {}), f"{before}{name}.")


def of_objects() -> Dict[str, str]:
    """The tables of the objects of --json, by the names that the schema has for them."""
    schemas = json.loads(OBJECTS.read_text(encoding="utf-8"))["$defs"]
    commands = [name.partition("-")[0] for name in schemas]
    found = {}
    for name, schema in schemas.items():
        command, _, record = name.partition("-")
        title = f"Key of `{record}`" if commands.count(command) > 1 else "Key"
        found[name] = table(title, keys(schema))
    return found


def columns(lines: str) -> Rows:
    r"""The columns of a table of SQL, each with the comment before it or before those before it.

    >>> list(columns("    -- a\n    -- b\n    one TEXT,\n    two TEXT,\n    PRIMARY KEY (one)\n"))
    [('one', 'a b'), ('two', 'a b')]
    """
    for comment, following in re.findall(r"((?:    -- .*\n)+)((?:    [a-z].*\n)*)", lines):
        words = " ".join(comment.replace("-- ", "").split())
        for name in re.findall(r"(?m)^    (\w+)", following):
            yield name, words


def _roff(text: str) -> str:
    return text.replace("-", "\\-")


def synopsis() -> str:
    """The usage of each command, for the manual page."""
    usages = [str(it.usage).partition(" ")[2] for it in parser.parsers()[1].values()]
    return ".br\n".join(f".B exifnorm-pictures\n{_roff(it)}\n" for it in usages)


def of_statuses() -> str:
    """What the statuses mean, for the manual page."""
    lines = []
    for status in range(3):
        texts = [(command, of_command[status]) for command, of_command in topics.STATUSES.items() if status in of_command]
        lines.append(f".TP\n.B {status}\n" + "\n".join(f'.BR "{command}" :\n{_roff(text)};' for command, text in texts)[:-1])
    lines += [f".TP\n.B {status}\n{_roff(text)}" for status, text in topics.COMMON.items()]
    return "\n".join([*lines, ".PP", _roff(topics.END), ""])


def _entry(head: str, words: str) -> str:
    return f".TP\n{_roff(head)}\n{_roff(words[0].upper() + words[1:])}.\n"


def _of_option(action: argparse.Action) -> str:
    """The names of an option and its value, in the fonts of a manual page."""
    if action.nargs == 0:
        return ".BR " + ' ", " '.join(action.option_strings)
    value = action.metavar or (f"{{{','.join(action.choices)}}}" if action.choices else action.dest.upper())
    return f'.BI "{action.option_strings[-1]} " "{value}"'


def _of_commands(commands: Sequence[str], every: int) -> str:
    return "" if len(commands) == every else f" Commands: {', '.join(commands)}."


def options() -> Dict[str, str]:
    """Each option for the manual page: by its command, or once for several that have the same words for it."""
    commands = parser.parsers()[1]
    found: Dict[Tuple[str, str], List[Tuple[str, argparse.Action]]] = {}
    for command, of_command in commands.items():
        for action in of_command._get_optional_actions():
            name = action.option_strings[-1]
            words = topics.OPTIONS.get(name) or str(action.help)
            found.setdefault((name, words), []).append((command, action))
    printed = {}
    for (name, words), having in found.items():
        entry = _entry(_of_option(having[0][1]), words)
        if len(having) < 3:
            printed.update({f"{command} {name}": entry for command, _ in having})
        elif name != "--help":
            printed[name] = entry[:-1] + _of_commands([command for command, _ in having], len(commands)) + "\n"
    return printed


def commands_() -> Dict[str, str]:
    """The head of each command for the manual page."""
    found = {}
    for name, of_command in parser.parsers()[1].items():
        operands = str(of_command.usage).partition("[OPTIONS] ")[2]
        found[name] = _entry(f'.BI "{name} " "{operands}"', str(of_command.description).partition(".\n")[0])
    return found


def manual() -> str:
    """The manual page, in which all is printed that the parser has: each part from its comment to the next one."""
    printed = {"synopsis": synopsis(), "statuses": of_statuses(), "rules": _roff(rules.EXAMPLES), **commands_(), **options()}
    text = (TOP / "docs/exifnorm-pictures.1").read_text(encoding="utf-8")
    marks = r'(?m)^(\.\\" printed: (.+)\n)(?:(?!\.\\").*\n)*'
    for name in {it[1] for it in re.findall(marks, text)} ^ {*printed}:
        sys.exit(f"docs/exifnorm-pictures.1: '{name}' is printed nowhere, or is nothing that the parser has")
    return re.sub(marks, lambda it: it[1] + printed[it[2]], text)


def of_tables() -> Dict[str, str]:
    """The tables of the columns of an export, by the names of its tables."""
    found = re.findall(r"(?ms)^CREATE TABLE (\w+) \(\n(.*?)^\)", TABLES)
    return {name: table("Column", columns(lines)) for name, lines in found}


def causes(source: str) -> str:
    r"""The table of the causes of an enum: when each comes, and the offset that is reported with it.

    >>> causes("pub enum Cause {\n    /// It is odd. The offset is\n    /// the entry's.\n    Odd,\n}\n")
    "| Cause | When | Offset (place) |\n|---|---|---|\n| Odd | it is odd | the entry's |\n"
    """
    declared = source.partition("pub enum Cause {")[2].partition("\n}")[0]
    rows = []
    for comment, name in re.findall(r"((?:    /// .*\n)+)    (\w+),", declared):
        when, _, place = " ".join(comment.replace("///", "").split()).partition(". The offset is ")
        rows.append(f"| {name} | {when[0].lower()}{when[1:]} | {place[:-1]} |\n")
    return "| Cause | When | Offset (place) |\n|---|---|---|\n" + "".join(rows)


def printed(page: str) -> str:
    """What a page is to have."""
    if page in PAGES:
        return PAGES[page]()
    known = {**of_objects(), **of_tables(), "causes": causes(CAUSES.read_text(encoding="utf-8"))}
    text = (TOP / page).read_text(encoding="utf-8")
    return MARKED.sub(lambda it: it[1] + known[it[2]], text)


def main(words: List[str]) -> int:
    if words not in ([], ["--check"]):
        sys.exit(__doc__)
    others = 0
    for page in (*PAGES, *WITH_TABLES):  # one after the other: some are made of those before them
        text, path = printed(page), TOP / page
        if path.exists() and path.read_text(encoding="utf-8") == text:
            continue
        others += 1
        print(page, "is not as printed" if words else "is written")
        if not words:
            path.write_text(text, encoding="utf-8")
    return int(bool(words and others))


if __name__ == "__main__":
    sys.exit(main(sys.argv[1:]))
