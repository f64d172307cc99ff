"""Fixtures of the tests of other machines: the C source, the programs made of it, and what the built library answers for many files."""

from __future__ import annotations

import hashlib
import random
import shutil
import zipfile
from pathlib import Path
from typing import Dict, Iterator

import c_source
import guard
import pytest
import wasm
from changed import changed
from lines_of_cases import lines
from machines import HERE, VERSION, Builds
from prove import locked

from commands import TOP, run

CUTS, CHANGES = 40, 150  # of each picture


@pytest.fixture(scope="session")
def c_archive(library: Path) -> Path:
    """The archive of the C source of the built library, with its folder beside it. It takes a minute of a processor, so it is made once for
    all processes, and kept beside the module that it is made of."""
    for tool, package in c_source.TOOLS.items():
        if not shutil.which(tool):
            pytest.skip(f"{tool} is not installed: `apt-get install {package}`")
    is_proved = not guard.refused(library / "libexifnorm.so.1")
    module = wasm.source_of(is_proved)
    files = [module, Path(c_source.__file__), Path(wasm.__file__), *TOP.glob("LICENSE-*")]
    files += sorted([*c_source.SOURCES.iterdir(), *c_source.HEADER.parent.iterdir()])
    made_from = [file.read_bytes() for file in files] + [line.encode() for line in lines()]
    folder = module.parent / f"c-{hashlib.sha256(b''.join(made_from)).hexdigest()[:16]}"
    archive = folder / f"exifnorm-{VERSION}-c.tar.gz"
    with locked(module.parent / "c-lock", "another process makes the C source: waiting for it"):
        return archive if archive.exists() else c_source.make(VERSION, 10**9, folder, is_proved)


@pytest.fixture(scope="session")
def c_folder(c_archive: Path) -> Path:
    return c_archive.with_name(c_archive.name[: -len(".tar.gz")])


@pytest.fixture(scope="session")
def builds(c_folder: Path, session_folder: Path) -> Iterator[Builds]:
    folder = session_folder / "builds"
    folder.mkdir()
    made = Builds(c_folder, folder)
    yield made
    made.end()


# ---- files, and what the built library answers for them


def contents() -> Iterator[bytes]:
    """The blocks of the worked cases and those that fuzzers kept, the sample pictures, and these with a change."""
    for line in lines():
        yield from (bytes.fromhex(it.strip("-\n")) for it in line.split(" ")[2:])
    with zipfile.ZipFile(TOP / "tests/library/fuzz/corpus.zip") as kept:
        yield from (kept.read(it) for it in sorted(kept.namelist()))
    rest = random.Random(1)
    for path in sorted([*TOP.glob("samples/before/*/*"), *TOP.glob("samples/after/*/*")]):
        picture = path.read_bytes()
        yield picture
        if path.suffix == ".jpg":
            yield from (changed(picture[:4000], rest) + picture[4000:] for _ in range(CHANGES))
            yield from (picture[: rest.randrange(4000)] for _ in range(CUTS))


@pytest.fixture(scope="session")
def files(session_folder: Path) -> Path:
    """A list of files, one a line."""
    folder, listing = session_folder / "files", session_folder / "files.txt"
    folder.mkdir()
    names: Dict[bytes, str] = {}
    for octets in contents():
        if octets not in names:
            names[octets] = str(folder / str(len(names)))
            Path(names[octets]).write_bytes(octets)
    listing.write_text("".join(f"{it}\n" for it in names.values()), encoding="ascii")
    return listing


@pytest.fixture(scope="session")
def answers(library: Path, files: Path, session_folder: Path) -> str:
    """What the built library answers for each file."""
    program = session_folder / "answers"
    shared = library / "libexifnorm.so.1"
    header = TOP / "crates/px_c/include"
    run(
        "cc",
        "-std=c99",
        "-O1",
        "-Wall",
        "-Wextra",
        "-pedantic",
        "-I",
        header,
        "-o",
        program,
        HERE / "answers.c",
        shared,
        f"-Wl,-rpath,{library}",
    )
    return run(program, files)
