"""Runs tests over one mistake after another, each in a forked process, in a copy of the tree.

A mistake in a function is put into a process that has imported the packages: behind the fixtures of the session, as the made museum, if these
don't reach it, or before. Any other one is imported by a process that has only the packages that ours need.
"""

from __future__ import annotations

import json
import os
import resource
import signal
import tempfile
import time
from pathlib import Path
from typing import Any, Callable, Dict, List, NamedTuple, Optional, Set

import planted
import pytest
from _pytest.runner import runtestprotocol

ENDLESS = 60  # seconds of a processor after which a mistake is one that doesn't end
WAITING = 300.0  # the same by the clock, for one that waits; a busy machine takes long
TOGETHER = 200  # mistakes that one process tries
FOUND, THROUGH, ENDED = "found by", "GOT THROUGH", "DOESN'T END"


class Plant(NamedTuple):
    """A mistake to try."""

    number: int
    path: str
    old: bytes
    new: bytes
    tests: List[str]
    is_shared: bool  # what the tests share reaches it
    is_imported: bool = False  # it may run while a module is imported


def waited(child: int, answer: Path) -> Dict[str, Any]:
    """How a process ended that tries a mistake, and the seconds of a processor."""
    end, pid = time.monotonic() + WAITING, 0
    while not pid and time.monotonic() < end:
        pid, status, used = os.wait4(child, os.WNOHANG)
        time.sleep(0 if pid else 0.01)
    for _ in range(not pid):
        os.killpg(child, signal.SIGKILL)
        pid, status, used = os.wait4(child, 0)
    seconds = used.ru_utime + used.ru_stime
    if time.monotonic() >= end or os.WIFSIGNALED(status) and os.WTERMSIG(status) == signal.SIGXCPU:
        return {"result": ENDED, "by": "", "seconds": seconds}
    by = answer.read_text() if answer.exists() else "the end of the process"
    return {"result": FOUND if by else THROUGH, "by": by, "seconds": seconds}


def tried(work: Callable[[], str], answer: Path) -> Dict[str, Any]:
    """What a forked process answers, which runs tests until one fails."""
    answer.unlink(missing_ok=True)
    if child := os.fork():
        try:
            os.setpgid(child, child)
        except OSError:
            pass  # it has done it itself
        return waited(child, answer)
    try:
        os.setpgid(0, 0)
        resource.setrlimit(resource.RLIMIT_CPU, (ENDLESS, ENDLESS + 5))
        answer.write_text(work())
    finally:
        os._exit(0)


def first_failed(items: Dict[str, Any], tests: List[str]) -> str:
    """The first of some tests that fails, or an empty text."""
    last = next(reversed(items.values()))
    for test in tests:
        item = items[test]
        following = last if item is not last else next(iter(items.values()))
        if any(it.failed for it in runtestprotocol(item, log=False, nextitem=following)):
            return test
    return ""


class Alone:
    """A plugin of pytest that runs some tests until one fails."""

    def __init__(self, tests: List[str]) -> None:
        self.tests, self.failed = tests, "the import of the tests"

    def pytest_runtestloop(self, session: Any) -> bool:
        self.failed = first_failed({it.nodeid: it for it in session.items}, self.tests) if not session.testsfailed else self.failed
        return True


class Trying:
    """A plugin of pytest that tries mistakes in functions: first those that the fixtures of the session reach."""

    def __init__(self, plants: List[Plant], tree: Path, anew: Path, tell: Callable[[Plant, Dict[str, Any]], None]) -> None:
        self.plants, self.tree, self.anew, self.tell = plants, tree, anew, tell

    def pytest_runtestloop(self, session: Any) -> bool:
        items = {it.nodeid: it for it in session.items}
        for is_shared in (True, False):
            if not is_shared:
                self.set_up(items)
            for plant in self.plants:
                if plant.is_shared == is_shared:
                    self.one(plant, items)
        os._exit(0)

    def set_up(self, items: Dict[str, Any]) -> None:
        """Runs a test for each fixture of the session, so that it is there."""
        known: Set[str] = set()
        for name, item in items.items():
            fixtures = item._fixtureinfo.name2fixturedefs
            needed = {it for it, found in fixtures.items() if found[-1].scope == "session"}
            if needed - known and not first_failed(items, [name]):
                known |= needed

    def one(self, plant: Plant, items: Dict[str, Any]) -> None:
        path = self.tree / plant.path
        functions = planted.functions_of(plant.old, plant.new, str(path))
        if functions is None:  # as of a function that a decorator has kept
            with open(self.anew, "a", encoding="ascii") as file:
                file.write(f"{plant.number}\n")
            return

        def work() -> str:
            planted.put(functions or [])
            return first_failed(items, plant.tests)

        path.write_bytes(plant.new)
        self.tell(plant, tried(work, self.tree.parent / f"answer-{self.tree.name}"))
        path.write_bytes(plant.old)


def pytest_of(words: List[str], plugin: Any, log: Path, folder: str) -> int:
    """Runs pytest in this process, whose outputs go to a file."""
    with open(log, "wb") as file:
        for stream in (1, 2):
            os.dup2(file.fileno(), stream)
    os.environ["TMPDIR"] = tempfile.tempdir = folder
    options = ["-q", "-s", "-n", "0", "-p", "no:cacheprovider", f"--basetemp={folder}/t", "-o", "timeout=0"]
    return int(pytest.main([*options, *words], plugins=[plugin]))


def try_anew(plant: Plant, words: List[str], tree: Path) -> Dict[str, Any]:
    """Tries a mistake that a module has when it is imported."""

    def work() -> str:
        plugin = Alone(plant.tests)
        pytest_of(words, plugin, Path(f"{tree}.log"), room(tree))
        return plugin.failed

    path = tree / plant.path
    path.write_bytes(plant.new)
    result = tried(work, tree.parent / f"answer-{tree.name}")
    path.write_bytes(plant.old)
    return result


def is_in_functions(plant: Plant) -> bool:
    """Whether a mistake is in functions alone, or in no module of Python, so that nothing needs to be imported for it."""
    if not plant.path.endswith(".py"):
        return True
    if plant.is_imported:
        return False
    codes = [compile(it, plant.path, "exec", dont_inherit=True) for it in (plant.old, plant.new)]
    return planted.exchanges(codes[0], codes[1]) is not None


def try_all(plants: List[Plant], words: List[str], tree: Path, said: Any) -> None:
    """Tries mistakes in a tree, and writes a line of JSON for each to a file, in a process of its own."""

    def tell(plant: Plant, result: Dict[str, Any]) -> None:
        said.write(json.dumps({"number": plant.number, **result}) + "\n")
        said.flush()

    os.chdir(tree)
    hot, anew = [it for it in plants if is_in_functions(it)], tree.parent / f"anew-{tree.name}"
    anew.touch()
    for start in range(0, len(hot), TOGETHER):
        try_together(Trying(hot[start : start + TOGETHER], tree, anew, tell), words)
    others = {*map(int, anew.read_text(encoding="ascii").split()), *(it.number for it in plants if it not in hot)}
    for plant in plants:
        if plant.number in others:
            tell(plant, try_anew(plant, words, tree))


def try_together(plugin: Trying, words: List[str]) -> None:
    """Tries mistakes in functions, in a process that imports the packages once."""
    if child := os.fork():
        os.waitpid(child, 0)
        return
    try:
        pytest_of(words, plugin, Path(f"{plugin.tree}.log"), room(plugin.tree))
    finally:
        os._exit(1)


def room(tree: Path) -> str:
    """A new folder for temporary files. Some tests run commands as another user."""
    folder = tempfile.mkdtemp(dir=tree.parent)
    os.chmod(folder, 0o755)
    return folder


def traced(tree: Path, words: List[str], file: Path, plugin: Callable[[], Any]) -> Optional[str]:
    """Writes what tests run to a file; or returns what went wrong."""
    log = tree.parent / "clean.log"
    child = os.fork()
    if not child:
        os.chdir(tree)
        tests = plugin()
        status = 1
        try:
            status = pytest_of(words, tests, log, room(tree))
            file.parent.mkdir(parents=True, exist_ok=True)
            if not status:
                file.write_text(json.dumps(tests.found()))
        finally:
            os._exit(status)
    return None if os.waitpid(child, 0)[1] == 0 else log.read_text()[-3000:]
