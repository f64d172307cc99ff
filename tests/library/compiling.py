"""Compilers and other programs for the tests of the library."""

import shutil

import pytest
from commands import TOP

HERE = TOP / "tests" / "library"
HEADERS = TOP / "crates" / "px_c" / "include"
STRICT = ["-Wall", "-Wextra", "-pedantic", "-Werror", "-I", str(HEADERS)]
C99 = ["cc", "-std=c99", "-O1", *STRICT]


def need(tool):
    """Skips a test whose tool isn't installed."""
    if not shutil.which(tool):
        pytest.skip(f"{tool} is not installed")
