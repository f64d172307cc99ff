"""The products in out/proved/: each library, program and archive, with a note of its sources."""

from __future__ import annotations

import contextlib
import hashlib
import os
import shutil
import time
from pathlib import Path
from typing import Iterator

from crates import Crates, below

HERE = Path(__file__).resolve().parent


def remove(path: Path) -> None:
    """Removes a file, or a folder with its content, if it exists."""
    if path.is_dir() and not path.is_symlink():
        shutil.rmtree(path)
    elif os.path.lexists(path):
        path.unlink()


def scripts_sum() -> str:
    """A sum of the scripts that define how a crate is proved, and what counts as proved."""
    return hashlib.sha256(b"".join((HERE / it).read_bytes() for it in ("compiler.py", "verdict.py"))).hexdigest()


class Store:
    """The one rule of what is up to date: each product in a folder has a note of its sources.

    A crate is up to date if its note has the sum of its current inputs: the toolchain, the scripts that prove, its sources with their
    names, and the notes of the libraries below it. Each note has the time of its build, so a crate is only valid over the very
    libraries that it was built over. Contents decide, never the times of files: a copied, moved or touched folder is not built
    again, whatever the clock shows.
    """

    def __init__(self, crates: Crates, version: str, folder: Path) -> None:
        """Without a version, which means without a toolchain, nothing can be built, and products of any toolchain are used."""
        self.crates, self.version, self.folder = crates, version, folder
        self.making = folder / "making"

    def product(self, crate: str) -> Path:
        return self.folder / self.crates.product(crate)

    def note(self, crate: str) -> Path:
        return self.folder / f"{crate}.made-from"

    def noted(self, crate: str) -> str:
        """The note of a crate: the sum, the time, and the toolchain; empty if there is none."""
        try:
            return self.note(crate).read_text(encoding="utf-8")
        except (FileNotFoundError, UnicodeDecodeError):
            return ""

    def over(self, crate: str) -> list[str]:
        """The crates whose products here a crate is built over."""
        return self.crates.own(crate)

    def sources(self, crate: str) -> list[str]:
        """Sums of the scripts and of the sources that a crate's product is made from."""
        return [scripts_sum(), self.crates.sum(crate)]

    def expected(self, crate: str) -> str:
        """The sum of the crate's current inputs."""
        version = self.version or "".join(self.noted(crate).splitlines()[2:3])
        notes = [self.noted(it) for it in self.over(crate)]
        return hashlib.sha256(repr((version, *self.sources(crate), notes)).encode()).hexdigest()

    def is_noted(self, crate: str) -> bool:
        return self.noted(crate).partition("\n")[0] == self.expected(crate)

    def is_built(self, crate: str) -> bool:
        """Whether a crate can be used as it is, to build another over it."""
        return self.product(crate).exists() and self.is_noted(crate)

    def is_current(self, crate: str) -> bool:
        """Whether a crate is built from the current sources, with all crates below it. The notes are enough to decide it."""
        return self.is_built(crate) and all(map(self.is_noted, below(crate, self.crates.uses)))

    def unbuilt(self, crate: str) -> list[str]:
        """The crates to build so that a crate is current: each after those that it uses."""
        crates: list[str] = []
        for name in [] if self.is_current(crate) else [*below(crate, self.crates.uses), crate]:
            if {*self.crates.own(name)} & {*crates} or not self.is_built(name):
                crates.append(name)
        return crates

    @contextlib.contextmanager
    def making_place(self) -> Iterator[None]:
        """Makes the folder for what is not whole yet, in place of that of a build that was killed, and removes it at the end."""
        remove(self.making)
        self.making.mkdir()
        try:
            yield
        finally:
            remove(self.making)

    def put(self, crate: str, product: Path, expected: str) -> None:
        """Moves a product to its path, and then its note, so that no product is ever beside another's note.

        If the sources were changed meanwhile, no note matches the product, and the crate counts as not built.
        """
        remove(self.note(crate))
        if self.product(crate).is_dir():
            remove(self.product(crate))
        os.replace(product, self.product(crate))
        if expected == self.expected(crate) and all(map(self.noted, self.over(crate))):
            noting = self.making / f"{crate}.made-from"
            noting.write_text(f"{expected}\n{time.time_ns()}\n{self.version}\n", encoding="utf-8")
            os.replace(noting, self.note(crate))
