"""Fixtures of the tests of the build."""

import pytest
from room import Room


@pytest.fixture
def room(folder):
    """A repository of a few small crates with a toolchain that proves nothing."""
    return Room(folder)


@pytest.fixture(scope="session")
def releases(session_folder):
    """Two releases, from folders that differ in all that must not matter."""
    from releases import two_releases

    return two_releases(session_folder)


@pytest.fixture(scope="session")
def made(releases):
    """The folder of a release."""
    return releases[0]
