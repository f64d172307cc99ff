"""The words of tables: each row is in a golden file by what it is about, so that two rows that are exchanged change lines which a reviewer reads;
and a number in words is put in from what the code uses."""

import ast
import importlib
import pkgutil
import re
import sys
from collections import Counter
from pathlib import Path

import exifnorm_pictures
from exifnorm_pictures.cli.output import status_of_results
from exifnorm_pictures.cli.commands.verify import _READERS
from exifnorm_pictures.comparison.same import group
from exifnorm_pictures.fields import rules
from exifnorm_pictures.fields.labels import LABELS, fields_by_label
from exifnorm_pictures.model import budgets
from exifnorm_pictures.model.budgets import LIMITS
from exifnorm_pictures.model.found import XMP
from exifnorm_pictures.model.problems import Follows, Problem
from exifnorm_pictures.model.texts import Result, Word
from exifnorm_pictures.refusals import explain
from exifnorm_pictures.refusals.causes import CAUSES, OTHER_REMEDIES, XMP_REMEDIES, words_of

OF_STANDARDS = {"65,536", "32,767"}  # the length of a JPEG's segment, and the greatest one of a DataSet that isn't extended


def members():
    """The members of all fixed lists of words, each with what its class declares."""
    for module in pkgutil.walk_packages(exifnorm_pictures.__path__, "exifnorm_pictures."):
        if not module.name.endswith("__main__"):
            importlib.import_module(module.name)
    for kind in sorted(Word.__subclasses__(), key=lambda it: it.__module__):
        if getattr(sys.modules[kind.__module__], kind.__name__, None) is kind:
            for it in kind:
                values = [getattr(it, name) for name in kind.__dict__.get("__annotations__", {})]
                if kind is Problem:
                    values[values.index(it.follows)] = (
                        "|".join(name for name, bit in vars(Follows).items() if name.isupper() and bit & it.follows) or "NOTHING"
                    )
                yield kind.__name__, it, *values


def test_each_row(golden):
    rows = [*members()]
    rows += [("status of", it, status_of_results(Counter([it]))) for it in Result if it not in (Result.ABSENT, Result.LEFT_OUT)]
    rows += [("sums", *it) for it in _READERS.items()]
    rows += [("limit", word, f"{number:,}") for word, number in LIMITS.items()]
    rows += [
        ("budget", word, f"{number:,}")
        for word, number in vars(budgets).items()
        if word.isupper() and word[0] != "_" and not isinstance(number, (str, dict))
    ]
    rows += [("label", it.word, it.exif, it.iptc, it.xmp, it.limit, it.is_list) for it in LABELS]
    rows += [("fields of", word, *fields) for word, fields in fields_by_label().items()]
    rows += [
        ("keep", it, getattr(group, it)) for it in ("NOT_KNOWN", "OTHER", "OTHER_PARTS", "OTHER_FILE", "NO_PICTURE", "HAS_MORE", "NOT_ALL")
    ]
    rows += [("meant in a rule by", *it) for it in rules._MEANT.items()]
    rows += [("cause", it, explain._FACTS.get(it, explain._entry).__name__[1:].upper()) for it in CAUSES]
    rows += [("cause of XMP", it, *words_of(it, XMP)) for it in (*XMP_REMEDIES, *OTHER_REMEDIES)]
    golden("words.txt", "".join(f"{row[0]} {row[1]}: {' | '.join(map(str, row[2:]))}\n" for row in rows))


def texts(tree):
    """The texts of a module that aren't documentation."""
    documents = {
        id(node.body[0].value)
        for node in ast.walk(tree)
        if isinstance(node, (ast.Module, ast.ClassDef, ast.FunctionDef)) and isinstance(node.body[0], ast.Expr)
    }
    return [
        node.value
        for node in ast.walk(tree)
        if isinstance(node, ast.Constant) and isinstance(node.value, str) and id(node) not in documents
    ]


def test_no_text_has_a_large_number_of_its_own():
    """It would stay if the limit changes: the text gets it from the constant."""
    for path in Path(exifnorm_pictures.__path__[0]).rglob("*.py"):
        found = {
            number
            for text in texts(ast.parse(path.read_text(encoding="utf-8")))
            for number in re.findall(r"(?<![\d{])\d{1,3}(?:,\d{3})+(?![\d}])", text)
        }
        assert found <= OF_STANDARDS, f"{path.name}: {found}"
