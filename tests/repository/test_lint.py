"""What the tools find in the sources: formatting, types, mistakes in Python and in shell scripts, misspelled words."""

import os
import re
import subprocess
from pathlib import Path

import pytest

TOP = Path(__file__).resolve().parents[2]
PYTHON = ("python", "build", "packaging", "tests", "bench", "docs", "samples")
SHELL = ("test", "exifnorm", "exifnorm-pictures", ".ci/run", *(str(it.relative_to(TOP)) for it in TOP.glob("packaging/*.sh")))
TEXTS = ("python", "build", "packaging", "bench", "crates", "debian", "docs", "Makefile", *(it.name for it in TOP.glob("*.md")))


def finds_nothing(*command: str) -> None:
    done = subprocess.run(command, cwd=TOP, stdin=subprocess.DEVNULL, stdout=subprocess.PIPE, stderr=subprocess.STDOUT, text=True)
    assert done.returncode == 0, done.stdout


def test_black() -> None:
    finds_nothing("black", "--check", "--config", "pyproject.toml", *PYTHON)


def test_mypy(tmp_path: Path) -> None:
    finds_nothing("mypy", "--cache-dir", str(tmp_path))


@pytest.mark.parametrize("package", ["exifnorm", "exifnorm_pictures"])
def test_a_name_that_a_package_does_not_have_is_a_mistake_in_types(package: str, tmp_path: Path) -> None:
    (tmp_path / "client.py").write_text(f"import {package}\n\nprint({package}.raed)\n")
    words = ["mypy", "--strict", "--config-file", "", "--cache-dir", str(tmp_path / "cache"), str(tmp_path / "client.py")]
    env = {**os.environ, "MYPYPATH": str(TOP / "python")}
    done = subprocess.run(words, cwd=TOP, stdin=subprocess.DEVNULL, stdout=subprocess.PIPE, text=True, env=env)
    assert re.search(r'client.py:3: error: Module has no attribute "raed"', done.stdout), done.stdout


def test_flake8() -> None:
    finds_nothing("flake8", *PYTHON)


def test_shellcheck() -> None:
    finds_nothing("shellcheck", *SHELL)


def test_codespell() -> None:
    assert [it for it in TEXTS if not (TOP / it).exists()] == []  # codespell skips what isn't there
    finds_nothing("codespell", *TEXTS)
