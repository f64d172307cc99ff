"""Runs the examples of the documents and manual pages, and compares their lists with the programs and the sources.

A section is run in a folder with pictures, and with the built commands on the PATH. Its fenced blocks are run in their order:
`sh` as a script, which succeeds; of `console` each line `$ COMMAND`, which prints the lines below it; `c` is compiled and run, and `python`
is run, or is a session of Python, which goes on in the next such block. A block of `text` that follows is the end of what was printed.
"""

from __future__ import annotations

import html
import math
import os
import re
import shutil
import subprocess
import sys
from fractions import Fraction
from pathlib import Path
from typing import Iterator, NamedTuple

import exifnorm
import pytest
from exifnorm_pictures.extract import readers
from made_blocks import BLOCKS, with_exif
from proved import bounds

TOP = Path(__file__).resolve().parent.parent.parent
DOCUMENTS = sorted([*TOP.glob("*.md"), *TOP.glob("docs/*.md"), *TOP.glob("*/README.md"), *TOP.glob("crates/*/*.md")])
WHOLE = ("README.md", "docs/TUTORIAL.md", "docs/CATALOGUE.md", "docs/JSON.md", "docs/PYTHON.md")  # whose sections build on one another
BY_SECTION = ("docs/RECIPES.md", "docs/REFUSALS.md", "docs/BLOCKS.md", "docs/LARGE-ARCHIVES.md")
HEADER = "crates/px_c/include/exifnorm.h"
TOOLS = ("exiftool", "exiv2", "convert", "parallel", "sqlite3", "perl")
PERIOD = 64 * 5 * 8  # a number of bytes for which each division in a bound is exact
STRICT = ("-std=c99", "-Wall", "-Wextra", "-pedantic", "-Werror")
COMPARES = re.compile(r"\bexifnorm(?:-pictures)? (?:changed|compare)\b[^|&]*\Z")  # a last command that may end with status 1


class Block(NamedTuple):
    kind: str
    text: str
    shown: str  # the end of what it prints


def text_of(name: str) -> str:
    return (TOP / name).read_text(encoding="utf-8")


def fenced(text: str) -> Iterator[Block]:
    """The blocks of a text, with what they print."""
    found = re.findall(r"(?ms)^```(\w+)\n(.*?)^```$", text)
    for (kind, block), following in zip(found, [*found[1:], ("", "")]):
        if kind in ("sh", "console", "c", "python"):
            yield Block("session" if block.startswith(">>> ") else kind, block, following[1] if following[0] == "text" else "")


def with_one_session(blocks: list[Block]) -> list[Block]:
    """The blocks, of which those of a session of Python are one."""
    session = "\n".join(it.text for it in blocks if it.kind == "session")
    return [Block("session", session, "")] * bool(session) + [it for it in blocks if it.kind != "session"]


def sections() -> Iterator[object]:
    for name in (*WHOLE, *BY_SECTION):
        if (TOP / name).exists():
            parts = re.split(r"(?m)^## ", text_of(name)) if name in BY_SECTION else [f"whole\n{text_of(name)}"]
            for part in parts:
                if blocks := with_one_session(list(fenced(part))):
                    yield pytest.param(name, blocks, id=f"{name}: {part.partition(chr(10))[0]}")
    name = "python/README.md"  # whose commands name folders of the reader
    yield pytest.param(name, [it for it in fenced(text_of(name)) if it.kind == "python"], id=name)


# ---- the folder in which they are run


# exifnorm-pictures on a very busy machine: by itself it waits a minute for ExifTool, and for the first worker of a cluster.
PATIENT = """import sys
from exifnorm_pictures.model import budgets
budgets.PROGRAM_SECONDS = 3600.0
from exifnorm_pictures.cli.main import main
sys.exit(main(sys.argv[1:]))"""
PATIENT_DASK = {f"DASK_DISTRIBUTED__COMM__TIMEOUTS__{it}": "3600s" for it in ("CONNECT", "TCP")}


def command(path: Path, line: str) -> None:
    path.write_text(f"#!/bin/sh\n{line}\n", encoding="utf-8")
    path.chmod(0o755)


def run(folder: Path, environment: dict[str, str], *words: str | Path) -> str:
    ran = subprocess.run(words, cwd=folder, env=environment, capture_output=True, check=False, timeout=1800)
    assert ran.returncode == 0, (words, ran)
    return ran.stdout.decode()


@pytest.fixture(scope="session")
def environment(session_folder: Path, program: Path, library: Path) -> dict[str, str]:
    """The variables of a command, with the built commands on the PATH. `make` prints what it would do."""
    commands = session_folder / "commands"
    commands.mkdir()
    command(commands / "exifnorm", f'exec "{program}" "$@"')
    command(commands / "exifnorm-pictures", f"exec '{sys.executable}' -c '{PATIENT}' \"$@\"")
    command(commands / "python3", f'exec "{sys.executable}" "$@"')
    command(commands / "make", f'exec /usr/bin/make -n -C "{TOP}" "$@"')
    return {
        **os.environ,
        **PATIENT_DASK,
        "PATH": f"{commands}:{os.environ['PATH']}",
        "LD_LIBRARY_PATH": str(library),
        "EXIFNORM_LIBRARY": str(library / "libexifnorm.so.1"),
        "PYTHONPATH": str(TOP / "python"),
        "HOME": str(session_folder),
    }


@pytest.fixture(scope="session")
def pictures(session_folder: Path, environment: dict[str, str]) -> Path:
    """What readers of the recipes have: a folder of pictures, a picture of each kind, and one whose block is refused."""
    if missing := [it for it in TOOLS if not shutil.which(it)]:
        pytest.skip(f"not installed: {', '.join(missing)}")
    folder = session_folder / "pictures of documents"
    (folder / "pictures" / "sub").mkdir(parents=True)
    for name in ("picture.jpg", "picture.tif"):
        run(folder, environment, "convert", "-size", "96x72", "plasma:tomato-steelblue", "-strip", name)
    refused = with_exif((folder / "picture.jpg").read_bytes(), BLOCKS["Overlap"])
    edit = ("exiftool", "-q", "-overwrite_original")
    iptc = ("-IPTC:CodedCharacterSet=UTF8", "-IPTC:Caption-Abstract=Zürich", "-IPTC:Keywords=one", "-IPTC:Keywords=two")
    run(folder, environment, *edit, "-ExifByteOrder=II", "-Make=Leica", "-Artist=Zürich", "-UserComment=a comment", *iptc, "picture.jpg")
    run(folder, environment, *edit, "-Artist=Someone", "picture.tif")
    for name in ("refused.jpg", "pictures/refused.jpg"):
        (folder / name).write_bytes(refused)
    for source, name in (("picture.jpg", "first.jpg"), ("picture.jpg", "sub/copy.jpg"), ("picture.tif", "scan.tif")):
        shutil.copy(folder / source, folder / "pictures" / name)
    (folder / "pictures" / "notes.txt").write_text("no picture\n")
    return folder


@pytest.fixture
def place(folder: Path, pictures: Path, environment: dict[str, str]) -> Path:
    """A folder with the pictures and the samples, and the commands of a clone."""
    shutil.copytree(pictures, folder, dirs_exist_ok=True)
    for name in ("exifnorm", "exifnorm-pictures"):
        command(folder / name, f'exec {name} "$@"')
    command(folder / "test", "true")
    if (TOP / "samples").exists():
        shutil.copytree(TOP / "samples", folder / "samples")
    return folder


class Runner:
    """Runs the blocks of a section in a folder."""

    def __init__(self, folder: Path, environment: dict[str, str], library: Path) -> None:
        self.folder, self.environment, self.library = folder, environment, library

    def ran(self, *words: str | Path) -> subprocess.CompletedProcess[str]:
        return subprocess.run(words, cwd=self.folder, env=self.environment, capture_output=True, text=True, check=False, timeout=1800)

    def run(self, block: Block) -> None:
        kinds = {"sh": self.run_sh, "console": self.run_console, "c": self.run_c, "python": self.run_python, "session": self.run_session}
        ran = kinds[block.kind](block.text)
        assert ran.endswith(block.shown), (block.text, ran)

    def run_sh(self, text: str) -> str:
        ran = self.ran("bash", "-e", "-u", "-o", "pipefail", "-c", text)
        assert ran.returncode in ((0, 1) if COMPARES.search(re.sub(r" *#.*", "", text.rstrip())) else (0,)), (text, ran.stdout, ran.stderr)
        return ran.stdout

    def run_console(self, text: str) -> str:
        for part in re.split(r"(?m)^\$ ", text)[1:]:
            line, _, expected = part.partition("\n")
            assert self.ran("bash", "-c", line).stdout == expected, line
        return ""

    def run_c(self, text: str) -> str:
        (self.folder / "example.c").write_text(text, encoding="utf-8")
        made = self.ran("cc", *STRICT, "-I", self.library, "example.c", "-L", self.library, "-l:libexifnorm.so.1", "-o", "example")
        assert (made.returncode, made.stderr) == (0, ""), text
        return self.success("./example")

    def run_python(self, text: str) -> str:
        return self.success(sys.executable, "-c", text)

    def run_session(self, text: str) -> str:
        (self.folder / "session.txt").write_text(text, encoding="utf-8")
        code = "import doctest, sys; sys.exit(doctest.testfile('session.txt', module_relative=False)[0])"
        ran = self.ran(sys.executable, "-c", code)
        assert (ran.returncode, ran.stderr) == (0, ""), ran.stdout
        return ""

    def success(self, *words: str) -> str:
        ran = self.ran(*words)
        assert (ran.returncode, ran.stderr) == (0, ""), words
        return ran.stdout


@pytest.mark.parametrize("name, blocks", sections())
def test_examples_of_a_document(name: str, blocks: list[Block], place: Path, environment: dict[str, str], library: Path) -> None:
    runner = Runner(place, environment, library)
    for block in blocks:
        runner.run(block)


def test_the_first_screen_of_the_readme(place: Path, environment: dict[str, str], library: Path) -> None:
    """Its questions, after its first five minutes, with good pictures and rules for those that it names."""
    questions, minutes = text_of("README.md").partition("\n## A tour")[0].split("\n## The first five minutes")
    (place / "archive").mkdir()
    for name in ("archive/a.jpg", "a.jpg", "b.jpg"):
        shutil.copy(place / "picture.jpg", place / name)
    (place / "museum.rules").write_text("every picture needs credit\n", encoding="utf-8")
    for line in re.findall(r"exifnorm-pictures [^`\n]+", minutes + questions):
        ran = Runner(place, environment, library).ran(*line.replace("/archive", "archive").split())
        assert ran.returncode < 2, (line, ran.stdout, ran.stderr)


def test_the_example_of_the_manual_page_in_c(folder: Path, environment: dict[str, str], library: Path) -> None:
    text = text_of("docs/exifnorm.3").partition(".SH EXAMPLES\n")[2].partition("\n.SH ")[0]
    examples = re.findall(r"(?ms)^\.nf\n(.*?)^\.fi$", text)
    assert examples
    for it in examples:
        Runner(folder, environment, library).run_c(it.replace("\\-", "-").replace("\\e", "\\"))


# ---- lists that must agree


def test_the_drawn_letter_is_that_of_the_recipes() -> None:
    drawn = re.findall('class="mono">(.*)</text>', text_of("docs/letter.svg"))
    letter = text_of("docs/RECIPES.md").partition("tail -n +3 letter\n```\n\n```text\n")[2].partition("```")[0]
    assert [html.unescape(it) for it in drawn] == letter.splitlines() and drawn


def help_of(environment: dict[str, str], *words: str) -> str:
    return run(TOP, {**environment, "COLUMNS": "500"}, *words, "--help")


def test_statuses_are_those_of_the_format_and_the_page(environment: dict[str, str]) -> None:
    shown = help_of(environment, "exifnorm").partition("Statuses:\n")[2].partition("\n\n")[0]
    statuses = re.findall(r"(?m)^  (\d+) ", shown)
    page = text_of("docs/exifnorm.1").partition(".SH EXIT STATUS\n")[2].partition("\n.SH ")[0]
    assert statuses and re.findall(r"(?m)^\.TP\n\.B (\d+)$", page) == statuses
    listed = text_of("docs/FORMAT.md").split("\n## 8.")[1].split("\n## 9.")[0]
    assert sorted(set(re.findall(r"(?m)^\| (\d+) \|", listed))) == statuses


def test_each_format_has_its_rows() -> None:
    tables = text_of("docs/COMPARED.md")
    due = {it.name: 3 - (it.name == "NAME.xmp") for it in readers.FORMATS}  # a sidecar has no other parts
    assert {name: tables.count(f"\n| {name} |") for name in due} == due


def test_the_limit_is_the_same_everywhere() -> None:
    limit = int(re.search(r"const LIMIT: u32 = ([\d_]+)", text_of("crates/px_bytes/src/blocks.rt"))[1].replace("_", ""))
    for name in ("docs/FORMAT.md", "docs/exifnorm.1", "docs/DECISIONS.md"):
        assert f"{limit:,}" in text_of(name), name
    assert f"#define EXIFNORM_LIMIT {limit}" in text_of(HEADER)
    assert exifnorm.LIMIT == limit


def test_the_promised_memory_is_that_of_the_definitions() -> None:
    """Bytes for each byte of a block, and of a file that is read, and the most that there are more: a mark is a bit, in whole words."""
    promised = []
    for request in (bounds().block_request, bounds().file_request):
        each = Fraction(request(PERIOD) - request(0), PERIOD)
        more = max(math.ceil(request(n) - each * n) for n in range(1000))
        promised.append((f"{math.ceil(100 * each) / 100:.2f}", f"{more:,}"))
    pattern = r"at most (\d+\.\d+) bytes [^|]*?\beach [^|]*?\band ([\d,]+) more"
    found = {name: re.findall(pattern, text_of(name)) for name in ("docs/PROOFS.md", "SECURITY.md")}
    assert (set(found["docs/PROOFS.md"]), found["SECURITY.md"]) == (set(promised), [promised[1]])


def test_the_toolchain_of_the_documents_has_the_logic_of_this_one() -> None:
    """Another kit of the same logic proves the same."""
    if not shutil.which("rt"):
        pytest.skip("rt is not on the PATH")
    printed = subprocess.run(["rt", "version"], capture_output=True, text=True, check=True).stdout
    (logic,) = re.findall(r"\blogic ([0-9a-f]{16})\b", printed)
    named = {found for path in DOCUMENTS for found in re.findall(r"\blogic ([0-9a-f]{16})\b", path.read_text(encoding="utf-8"))}
    assert named == {logic}


# ---- form


def test_links_lead_to_files() -> None:
    for path in DOCUMENTS:
        for target in re.findall(r"\]\(([^)#\s]+)[^)]*\)", path.read_text(encoding="utf-8")):
            assert "://" in target or target.startswith("mailto:") or (path.parent / target).exists(), f"{path.name}: {target}"


@pytest.mark.parametrize("page", sorted(TOP.glob("docs/*.[1-9]")), ids=lambda it: it.name)
def test_a_manual_page_has_no_mistake_of_roff(page: Path) -> None:
    for words in (["man", "--warnings", "-l"], ["mandoc", "-T", "lint", "-W", "error"]):
        if not shutil.which(words[0]):
            pytest.skip(f"{words[0]} is not installed")
        environment = {**os.environ, "LC_ALL": "C.UTF-8", "MANPAGER": "cat"}
        ran = subprocess.run(
            [*words, page],
            env=environment,
            stdout=subprocess.DEVNULL if words[0] == "man" else subprocess.PIPE,
            stderr=subprocess.PIPE,
            text=True,
            check=False,
        )
        assert (ran.stdout or "", ran.stderr) == ("", "")
