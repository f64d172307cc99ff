"""What each test runs of the packages: by python3-coverage, once, and kept in out/plant for these sources."""

from __future__ import annotations

import hashlib
import json
import os
from collections import Counter
from itertools import accumulate
from pathlib import Path
from typing import Any, Dict, List, Set

import pytest

Lines = Dict[str, Dict[str, List[int]]]  # by test and file; "" is what tests share: imports, and fixtures of the session
QUICK = 0.4  # seconds of a test that is run for what it doesn't reach itself
MOST = 24.0  # seconds of all tests that are run for a mistake, as they are under coverage, which takes half of them


class Traced:
    """A plugin of pytest: which lines each test runs, and how long."""

    def __init__(self) -> None:
        import coverage

        self.lines: Lines = {}
        self.seconds: Dict[str, float] = {}
        self.coverage = coverage.Coverage(data_file=None, include=["python/*"], config_file=False)
        self.coverage.start()

    @pytest.hookimpl(tryfirst=True)  # type: ignore[misc]
    def pytest_fixture_setup(self, fixturedef: Any) -> None:
        self.coverage.switch_context("" if fixturedef.scope == "session" else self.now)

    def pytest_runtest_logstart(self, nodeid: str) -> None:
        self.now = nodeid

    @pytest.hookimpl(tryfirst=True)  # type: ignore[misc]
    def pytest_runtest_call(self, item: Any) -> None:
        self.coverage.switch_context(item.nodeid)
        self.began = sum(os.times()[:4])

    def pytest_runtest_logreport(self, report: Any) -> None:
        if report.when == "call" and report.passed:
            self.seconds[report.nodeid] = round(sum(os.times()[:4]) - self.began, 3)

    def found(self) -> Dict[str, Any]:
        """What ran, for a file."""
        self.coverage.stop()
        data = self.coverage.get_data()
        for name in data.measured_files():
            for line, tests in data.contexts_by_lineno(name).items():
                for test in tests:
                    self.lines.setdefault(test, {}).setdefault(os.path.relpath(name), []).append(line)
        return {"lines": self.lines, "seconds": self.seconds}


def place(top: Path, words: List[str]) -> Path:
    """The file with what these tests run of these sources."""
    digest = hashlib.sha256(" ".join(words).encode())
    for path in sorted(it for name in ("python", "tests") for it in (top / name).rglob("*") if it.suffix in (".py", ".txt")):
        digest.update(path.read_bytes())
    return top / "out" / "plant" / f"{digest.hexdigest()[:16]}.json"


class Reached:
    """Which tests run a line, and which are run for a mistake."""

    def __init__(self, file: Path) -> None:
        kept = json.loads(file.read_text())
        self.seconds: Dict[str, float] = kept["seconds"]
        self.tests: Dict[str, Dict[int, Set[str]]] = {}
        for test, by_path in kept["lines"].items():
            for path, lines in by_path.items():
                for line in lines:
                    self.tests.setdefault(path, {}).setdefault(line, set()).add(test)

    def of(self, path: Path, lines: range) -> Set[str]:
        """The tests that run one of some lines."""
        known = self.tests.get(str(path), {})
        return set().union(*(known.get(it, set()) for it in lines))

    def all(self) -> List[str]:
        """All tests, the quickest first."""
        return sorted(self.seconds, key=lambda it: self.seconds[it])

    def order(self, path: Path, lines: range, readers: Set[str]) -> List[str]:
        """The tests to run for a mistake: those that reach it, and then those that reach what it gives a value to; if it is in what tests share,
        all quick ones too. First is the quickest call of each command, then the next one of each, until they take as long as a mistake may.
        """
        own = self.of(path, lines)
        others = (readers - {""}) or {it for it, seconds in self.seconds.items() if seconds < QUICK} if "" in own else set()
        ranks, counts = {}, Counter[str]()
        for test in sorted((own | others) & {*self.seconds}, key=lambda it: self.seconds[it]):
            ranks[test] = (test not in own, counts[command_of(test)], self.seconds[test])
            counts[command_of(test)] += 1
        ordered = sorted(ranks, key=lambda it: ranks[it])
        ends = accumulate(self.seconds[it] for it in ordered)
        return [it for it, end in zip(ordered, ends) if end < MOST or it == ordered[0]]


def command_of(test: str) -> str:
    """What calls of the same command have in common.

    >>> command_of("test_museum.py::test_what_a_command_prints[same plain]")
    'test_museum.py::test_what_a_command_prints[same'
    """
    return test.partition(" ")[0]
