"""Plants wrong bodies in the crates, and expects the prover to refuse each of them, with the goals that its table names.

README.md describes the tables. The libraries must be in out/proved, as `make` puts them there. A group of bodies is planted in a copy of
its crate, where the compiler then tries their functions. A group that has passed with the same sources, table and toolchain isn't tried
again; the option --proof-again tries all of them. Controls are tried with the option --controls.
"""

from __future__ import annotations

import functools
import os
import signal
import tempfile
from typing import Iterator

import pytest
from bodies import HERE, Body, Passed, Verdict, read_table
from compiler import Compiler, version
from crates import Crates
from prover import Prover
from store import Store

TOP = HERE.parent.parent
MEMORY = 3 << 30  # of the machine, for each process that tries bodies; one has taken up to 1.9 GB
TABLES = {path.stem: read_table(path) for path in HERE.glob("px_*.json")}
pytestmark = pytest.mark.proof


@pytest.fixture(scope="session")
def prover() -> Iterator[Prover]:
    """The compiler. It is ended if the run is stopped."""
    signal.signal(signal.SIGTERM, signal.default_int_handler)
    crates = Crates.read(TOP)
    store = Store(crates, version(), TOP / "out" / "proved")
    with tempfile.TemporaryFile("w") as used:
        compiler = Compiler(crates, store.folder, used)
        yield Prover(store, compiler, Passed(TOP / "out" / "bodies", crates, store.version))
        compiler.stop()


@functools.lru_cache(maxsize=None)
def outcome(prover: Prover, crate: str, number: int, controls: bool, again: bool) -> Verdict | Exception | None:
    """What a group came to. It is tried once for all of its bodies, also if that fails."""
    try:
        return prover.try_group(crate, number, TABLES[crate][number], controls, again)
    except Exception as why:
        return why


def verdict(prover: Prover, config: pytest.Config, crate: str, number: int, controls: bool) -> Verdict | None:
    found = outcome(prover, crate, number, controls, config.getoption("--proof-again"))
    if isinstance(found, Exception):
        raise found
    return found


def processes() -> dict[str, int]:
    """The process that tries each crate's bodies: as many as this machine has memory for, each with about as much to prove."""
    crates = Crates.read(TOP)
    sizes = {crate: sum(it.stat().st_size for it in crates.sources(crate)) for crate in TABLES}
    loads = [0] * max(1, os.sysconf("SC_PHYS_PAGES") * os.sysconf("SC_PAGE_SIZE") // MEMORY)
    found = {}
    for crate in sorted(TABLES, key=lambda it: -sizes[it]):
        found[crate] = loads.index(min(loads))
        loads[found[crate]] += sizes[crate]
    return found


def all_bodies(controls: bool) -> Iterator:
    """Each body, or each one with a control, with its crate and the number of its group. A crate's bodies are tried by one process."""
    for crate, process in processes().items():
        for number, group in enumerate(TABLES[crate]):
            for body in group:
                if body.control or not controls:
                    yield pytest.param(
                        crate, number, body, id=f"{crate}: {body.why}", marks=pytest.mark.xdist_group(f"bodies-{process + 1}")
                    )


@pytest.mark.parametrize("crate, number, body", all_bodies(controls=False))
def test_is_refused(prover: Prover, pytestconfig: pytest.Config, crate: str, number: int, body: Body) -> None:
    found = verdict(prover, pytestconfig, crate, number, controls=False)
    if found:
        assert found.fault(body) == ""


@pytest.mark.control
@pytest.mark.parametrize("crate, number, body", all_bodies(controls=True))
def test_control_is_told_apart(prover: Prover, pytestconfig: pytest.Config, crate: str, number: int, body: Body) -> None:
    """Tried with --controls: a table's controls need it only when the table changes."""
    found = verdict(prover, pytestconfig, crate, number, controls=True)
    if found:
        assert found.control_fault(body) == ""
