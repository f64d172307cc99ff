"""Tests that what the documents name exists: paths, lemmas by their file, clauses by their call, and the files of CONTRIBUTING's table."""

import doctest
import re
from functools import lru_cache
from pathlib import Path
from typing import Dict, Iterator, List, Set, Tuple

import crates_page
import pages
import pytest

TOP = Path(__file__).resolve().parent.parent.parent
DOCUMENTS = sorted(
    {*TOP.glob("*.md"), *TOP.glob("docs/**/*.md"), *TOP.glob("crates/*/*.md"), *TOP.glob("*/README.md"), *TOP.glob("tests/*/README.md")}
)
MADE = {
    "crates/NAME/specs",
    "crates/NAME/src",
    "proofs/MODULE/FUNCTION/",
    "Proof.antt",
    "FOLDER/",
    "2024/web/",
    "Picture.json",
}  # examples, and an attribute
ELSEWHERE = ("/", "./", "..", "out/", "bin/", "lib/", "share/", "include/", "usr/", "etc/")  # what is built or installed
WORD = re.compile(r"[^\W\d][\w-]*")
FILE = re.compile(r"[\w.*-]*(?:/[\w.*-]*)+|[\w-]+\.(?:rt|antt|py|md|json|sh|c|h|txt|edit)")


@lru_cache(maxsize=None)
def sources(crate: str = "px_*") -> List[Path]:
    """The sources, definitions and proofs of a crate, and the files of its tests."""
    found = {it for below in ("src", "specs", "proofs", "include") for it in TOP.glob(f"crates/{crate}/{below}/**/*")}
    return sorted(it for it in found if it.is_file())


@lru_cache(maxsize=None)
def words_of(path: Path) -> Set[str]:
    """The words of a file and of its name."""
    return set(WORD.findall(path.read_text(encoding="utf-8"))) | {path.stem}


def quoted(text: str) -> List[str]:
    """What a text has in backticks, outside blocks.

    >>> quoted("`a` and `b c`")
    ['a', 'b c']
    """
    return re.findall(r"`([^`\n]+)`", re.sub(r"^```.*?^```$", "", text, flags=re.M | re.S))


def is_there(name: str, crate: str = "px_*") -> bool:
    """Whether a path leads to a file: from the top, from docs/ or tests/, or within a crate; `.antt` may be left out."""
    below = [f"crates/{crate}/{it}" for it in ("", "src/", "specs/", "proofs/", "include/")]
    roots = ["", "docs/", "tests/", "tests/program/cases/", "python/", *below]
    return any(any(TOP.glob(root + name + end)) for root in roots for end in ("", ".antt"))


def lemmas(text: str) -> Iterator[Tuple[str, str, str]]:
    """Each `NAME in FILE` of a document, as (name, file, crate of the section)."""
    crate = "px_*"
    for line in text.splitlines():
        heading = re.match(r"## (px_\w+)?", line)
        crate = (heading[1] or "px_*") if heading else crate
        for names, file in re.findall(r"((?:`[^`]+`(?:, | and |,? or )?)+) in `([\w/.]+)`", line):
            yield from ((re.split(r"::|\.", it)[-1].split("(")[0].split(" ")[0], file, crate) for it in quoted(names))


@lru_cache(maxsize=None)
def clauses_of(crate: str) -> Dict[str, Set[str]]:
    """The named clauses of each function of a crate. Functions of one name are one entry."""
    found: Dict[str, Set[str]] = {}
    for path in sorted(TOP.glob(f"crates/{crate}/src/*.rt")):
        for part in re.split(r"\bfn (?=\w)", path.read_text(encoding="utf-8"))[1:]:
            found.setdefault(WORD.match(part)[0], set()).update(re.findall(r"\bensures (\w+) \{", part))
    return found


def wrong_clauses(text: str) -> List[str]:
    """What is wrong in each `CALL, CALL, clauses NAME, NAME` of a table: a clause of none of the calls, or a call with none of them.

    >>> wrong_clauses("## px_bytes\\n| a | `Block::new`, `Ranges::add`, clause `listed` |\\n| b | px_engine's `check`, clause `taken` |")
    ['px_bytes: new has none of these clauses: listed', 'px_engine: check has none of these clauses: taken', 'px_engine: taken is no clause of check']
    """
    wrong, crate = [], "px_*"
    for line in text.splitlines():
        heading = re.match(r"## (px_\w+)?", line)
        crate = (heading[1] or "px_*") if heading else crate
        for part in line.strip("|").split("|")[-1].split(";") if line.startswith("|") else []:
            listed = re.search(r"\bclauses? ((?:`\w+`(?:, )?)+)", part)
            other = re.search(r"\b(px_\w+)'s? `", part)
            owner = other[1] if other else crate
            calls = clauses_of(owner)
            named = [it.split("::")[-1] for it in quoted(part.replace(listed[0], ""))] if listed else []
            named = [it for it in named if it in calls]
            clauses = quoted(listed[1]) if listed and named else []
            wrong += [f"{owner}: {it} has none of these clauses: {', '.join(clauses)}" for it in named if not calls[it] & set(clauses)]
            wrong += [f"{owner}: {it} is no clause of {', '.join(named)}" for it in clauses if not any(it in calls[name] for name in named)]
    return wrong


def files_named(file: str, crate: str) -> List[Path]:
    """The sources with this name, of the crate or, if it has none, of all crates."""
    ends = (f"/{file}", f"/{file}.antt", f"/{file}.rt")
    found = [it for it in sources() if str(it).endswith(ends)]
    return [it for it in found if crate in it.parts] or found


def change_rows() -> List[List[str]]:
    """The cells of each row of CONTRIBUTING's table of changes."""
    text = (TOP / "CONTRIBUTING.md").read_text(encoding="utf-8")
    table = re.search(r"^\| Change \|.*\n\|[-| ]*\n((?:\|.*\n)+)", text, re.M)
    assert table, "CONTRIBUTING has no table of changes"
    return [[cell.strip() for cell in row.strip("|").split("|")] for row in table[1].splitlines()]


@pytest.mark.parametrize("path", DOCUMENTS, ids=lambda it: str(it.relative_to(TOP)))
def test_paths_in_backticks(path: Path) -> None:
    named = {part.strip("(),;:'\"<>") for text in quoted(path.read_text(encoding="utf-8")) for part in text.split()}
    paths = [it for it in named if FILE.fullmatch(it) and not it.startswith(ELSEWHERE) and it not in MADE]
    assert [it for it in paths if not is_there(it) and not is_there(f"specs/{it}") and not (path.parent / it).exists()] == []


@pytest.mark.parametrize("name", ["PROOFS", "READING"])
def test_lemmas_and_definitions_are_in_their_files(name: str) -> None:
    found = list(lemmas((TOP / "docs" / f"{name}.md").read_text(encoding="utf-8")))
    assert found
    assert [it for it in found if not any(it[0] in words_of(file) for file in files_named(it[1], it[2]))] == []


def test_proofs_are_of_the_crate_of_their_section() -> None:
    crate, wrong = "px_*", []
    for line in (TOP / "docs" / "PROOFS.md").read_text(encoding="utf-8").splitlines():
        heading = re.match(r"## (px_\w+)?", line)
        crate = (heading[1] or "px_*") if heading else crate
        for name in re.findall(r"`(proofs/[\w/]+)`", line):
            other = re.search(rf"(px_\w+)(?:'s?)? `{name}`", line)
            wrong += [] if is_there(name, other[1] if other else crate) else [(name, crate)]
    assert wrong == []


def test_clauses_are_of_their_calls() -> None:
    text = (TOP / "docs" / "PROOFS.md").read_text(encoding="utf-8")
    assert re.search(r"(?m)^\|.*`, clauses? `", text), "PROOFS names clauses in another way"
    assert wrong_clauses(text) == []


@pytest.mark.parametrize("row", change_rows(), ids=lambda it: it[0])
def test_a_row_of_the_table_of_changes(row: List[str]) -> None:
    """Each name of a cell is a path, or a file, a definition or a word of the crate named before it."""
    change, *cells, documents = row
    assert len(cells) == 3, "change, code, definitions, tests, documents"
    for cell in cells:
        crate = "px_*"
        for other, name in re.findall(r"(px_\w+)(?=[ :])|`([^`]+)`", cell):
            crate = other or crate
            if name:
                is_word = "." not in name and any(name in words_of(it) for it in sources(crate))
                assert is_word or is_there(name, crate), f"{crate}: {name}"
    for name in re.findall(r"\b[A-Z]{6,}\b", documents):
        assert is_there(f"{name}.md"), name
    for number in re.findall(r"FORMAT (\d+)(?: and (\d+))?", documents):
        for it in filter(None, number):
            assert f"\n## {it}." in (TOP / "docs" / "FORMAT.md").read_text(encoding="utf-8"), it


def used_definitions(crate: str, name: str) -> Set[Tuple[str, str]]:
    """The files of definitions that one uses."""
    text = (TOP / "crates" / crate / "specs" / f"{name}.antt").read_text(encoding="utf-8")
    assert not re.search(r"Rattle\.px_\w+\.specs\.calls", text), f"{crate}: {name}"
    return set(re.findall(r"(?m)^(?:pub )?use Rattle\.(px_\w+)\.specs\.([A-Z]\w*)\b", text))


def test_promises_are_quoted_as_they_are() -> None:
    """READING quotes definitions as they are, and lists files of definitions, each after those of the list that it uses."""
    text = (TOP / "docs" / "READING.md").read_text(encoding="utf-8")
    quoted_files = ("px_engine/specs/Headline", "px_xmp_pictures/specs/Same", "px_xmp_pictures/specs/Xmp")
    definitions = "".join((TOP / "crates" / f"{it}.antt").read_text(encoding="utf-8") for it in quoted_files)
    quotes = re.findall(r"(?ms)^```\n(.*?)^```$", text)
    assert quotes and all(quote in definitions for quote in quotes)
    rows = re.findall(r"(?m)^\| (px_\w+) \| ([^|]*) \|$", text)
    listed = [(crate, file) for crate, files in rows for file in re.findall(r"`(\w+)`", files)]
    assert listed
    for i, (crate, name) in enumerate(listed):
        assert not used_definitions(crate, name) & set(listed[i + 1 :]), f"{crate}: {name}"


def test_what_is_printed() -> None:
    """Each page and each table that packaging/pages.py prints."""
    assert pages.main(["--check"]) == 0
    assert not doctest.testmod(crates_page).failed + doctest.testmod(pages).failed
