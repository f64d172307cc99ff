"""Pairs of files for `changed`, which the fixture `compared` compares."""

from typing import NamedTuple

import pytest

SAME, DIFFERENT, UNDECIDED = 0, 1, 2  # the statuses of `changed`


class Pair(NamedTuple):
    """Two files, and the status of their comparison."""

    name: str
    before: bytes
    after: bytes
    status: int


def of_pairs(*makers):
    """The pairs of some makers as parameters of a test."""
    return pytest.mark.parametrize("pair", [it for make in makers for it in make()], ids=lambda it: it.name)
