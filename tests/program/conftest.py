"""Fixtures of the tests of the program."""

import resource
from pathlib import Path

import pytest
from shims import make_shim


@pytest.fixture(scope="session", autouse=True)
def no_core_files() -> None:
    """A program that crashes leaves no core file in the folder of its test."""
    resource.setrlimit(resource.RLIMIT_CORE, (0, resource.getrlimit(resource.RLIMIT_CORE)[1]))


@pytest.fixture(scope="session")
def watch(session_folder: Path) -> str:
    """The preloaded library that counts what a run costs."""
    return make_shim(session_folder, "watch_calls")


@pytest.fixture(scope="session")
def refuse(session_folder: Path) -> str:
    """The preloaded library that lets an allocation fail."""
    return make_shim(session_folder, "refuse_allocation")
