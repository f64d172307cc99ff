"""The library and the program for aarch64, and the program without any library: each answers as the built ones, which qemu shows."""

from __future__ import annotations

import re
import subprocess
from pathlib import Path
from typing import List

import pytest
from cases import Case, read_all
from judging import problems_of_case
from machines import GCC, HERE, QEMU, ROOT, make
from made_cases import cases_of_causes

from commands import TOP, run

pytestmark = pytest.mark.xdist_group("machines")  # they are built once
CASES = [*(case for case in read_all() if isinstance(case, Case)), *cases_of_causes()]


@pytest.fixture(scope="module")
def there() -> Path:
    """The folder of the library for aarch64."""
    make("aarch64")
    return TOP / "out/aarch64/lib"


@pytest.fixture(scope="module", params=["static x86_64", "static aarch64", "aarch64"])
def other_program(request: pytest.FixtureRequest, session_folder: Path) -> Path:
    """A program that was not linked by the kit, as a file that runs here. Both for aarch64 have the same object file."""
    kind, _, machine = request.param.rpartition(" ")
    make(kind or machine)
    program = TOP / "out/static" / f"exifnorm-{machine}" if kind else TOP / "out/aarch64/bin/exifnorm"
    if machine == "x86_64":
        return program
    script = session_folder / f"{kind}{machine}"
    script.write_text(f'#!/bin/sh\nexec {QEMU} -L {ROOT} {program} "$@"\n', encoding="ascii")
    script.chmod(0o755)
    return script


# ---- the library for aarch64


@pytest.mark.parametrize("kind", ["static", "shared"])
def test_it_answers_as_the_built_library(there: Path, folder: Path, files: Path, answers: str, kind: str) -> None:
    words: List[str | Path] = [there / "libexifnorm.so.1"] if kind == "shared" else ["-static", there / "libexifnorm.a"]
    run(GCC, "-std=c99", "-O1", "-I", TOP / "crates/px_c/include", "-o", folder / "answers", HERE / "answers.c", *words)
    lines = run(QEMU, "-L", ROOT, "-E", f"LD_LIBRARY_PATH={there}", folder / "answers", files).splitlines()
    different = [(ours, theirs) for ours, theirs in zip(lines, answers.splitlines()) if ours != theirs]
    assert different[:5] == []
    assert len(lines) == len(answers.splitlines())


def test_it_has_the_calls_and_needs_glibc_alone(there: Path) -> None:
    """It shows the calls of the header, needs what glibc has since 2.17, its first version for aarch64, and is hardened as the built one."""
    library = there / "libexifnorm.so.1"
    said = run("aarch64-linux-gnu-readelf", "-dVW", library)
    assert re.findall(r"\(NEEDED\).*\[(.*)\]", said) == ["libc.so.6"]
    assert set(re.findall(r"Name: GLIBC_(\S+)", said)) == {"2.17"}
    assert "BIND_NOW" in said and "GNU_RELRO" in run("aarch64-linux-gnu-readelf", "-lW", library)
    names = re.findall(r" T (\w+)", run("aarch64-linux-gnu-nm", "-D", library))
    assert sorted(names) == sorted(re.findall(r"\bexifnorm_\w+(?=;)", (TOP / "packaging/exifnorm.map").read_text(encoding="utf-8")))


# ---- the program for aarch64, and the programs without any library


def test_worked_cases(other_program: Path) -> None:
    chosen = CASES[::10] if other_program.name == "aarch64" else CASES
    problems = [(case.name, problem) for case in chosen for problem in problems_of_case(other_program, case)]
    assert problems[:5] == []


def test_samples(other_program: Path, program: Path, files: Path) -> None:
    """It prints for the sample pictures and for blocks what the built program prints."""
    names = files.read_text(encoding="ascii").split()[:: 200 if other_program.name == "aarch64" else 40]
    for command in ("check", "show", "captions"):
        for name in names:
            ours, theirs = (subprocess.run([it, command, name], stdout=subprocess.PIPE, check=False) for it in (other_program, program))
            assert (ours.returncode, ours.stdout) == (theirs.returncode, theirs.stdout), (command, name)


def test_the_program_for_aarch64_is_hardened() -> None:
    make("aarch64")
    said = run("aarch64-linux-gnu-readelf", "-hdlW", TOP / "out/aarch64/bin/exifnorm")
    assert "DYN (Position-Independent" in said and "BIND_NOW" in said and "GNU_RELRO" in said
    assert re.findall(r"\(NEEDED\).*\[(.*)\]", said) == ["libc.so.6"]
