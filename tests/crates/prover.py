"""Plants wrong bodies in copies of crates, and lets the compiler try them."""

from __future__ import annotations

import shutil
import subprocess
import sys
import tempfile
from dataclasses import replace
from pathlib import Path
from typing import Sequence

from bodies import Body, Passed, Verdict
from compiler import Compiler
from crates import below
from store import Store

PARTS = ("src", "specs", "proofs")


def planted(group: Sequence[Body], controls: bool) -> list[Body]:
    """The wrong bodies of a group, or the harmless ones in their place."""
    return [it.harmless() for it in group if it.control] if controls else [replace(it, control=()) for it in group]


class Prover:
    """Lets the compiler try bodies in copies of crates, over the proved libraries below them."""

    def __init__(self, store: Store, compiler: Compiler, passed: Passed) -> None:
        self.store, self.crates, self.compiler, self.passed = store, store.crates, compiler, passed

    def verdict(self, crate: str, group: Sequence[Body]) -> Verdict:
        """What the search proves of a crate's functions with these bodies. It takes the contracts of the functions that they call as they
        are, because `rt ci` proves them."""
        for lower in below(crate, self.crates.uses):
            if not self.store.is_built(lower):  # `make` proves only what the program and the library use
                subprocess.run([sys.executable, self.crates.top / "build" / "prove.py", lower], check=True)
        with tempfile.TemporaryDirectory(prefix="wrong-bodies-") as name:
            folder = Path(name)
            for part in PARTS:
                if (self.crates.folder(crate) / part).is_dir():
                    shutil.copytree(self.crates.folder(crate) / part, folder / part)
            for it in group:
                it.plant(folder)
            with open(folder / "log", "w", encoding="utf-8") as log:
                status = self.compiler.call(self.compiler.start(crate, [it.planted for it in group]), folder, log)
            text = (folder / "log").read_text(encoding="utf-8", errors="replace")
            assert status == 0, f"the compiler ended with status {status}: {text[-1500:]}"
            return Verdict.read(text, folder)

    def try_group(self, crate: str, number: int, bodies: Sequence[Body], controls: bool, again: bool) -> Verdict | None:
        """The verdict on a group of a crate's table, or on its controls; None if it has passed with the same sum."""
        group = planted(bodies, controls)
        name, found = f"{crate}-{number}" + "-controls" * controls, self.passed.sum(crate, group)
        if not again and self.passed.has(name, found):
            return None
        verdict = self.verdict(crate, group)
        if verdict.is_right(group, controls) and found == self.passed.sum(crate, group):
            self.passed.add(name, found)
        return verdict
