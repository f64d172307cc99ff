"""The crates of the repository: what each uses, the order in which they are proved, and their sources."""

from __future__ import annotations

import hashlib
import os
from dataclasses import dataclass
from pathlib import Path


def listed(text: str) -> tuple[dict[str, list[str]], set[str]]:
    """What each crate of a crates.txt uses, and the crates that are static libraries.

    >>> listed("low: byteorder # a comment\\nhigh staticlib: low\\n")
    ({'low': ['byteorder'], 'high': ['low']}, {'high'})
    """
    lines = [line.partition("#")[0].partition(":") for line in text.splitlines()]
    rows = [(head.split(), used.split()) for head, _, used in lines if head.strip()]
    return {head[0]: used for head, used in rows}, {head[0] for head, _ in rows if "staticlib" in head[1:]}


def below(crate: str, uses: dict[str, list[str]]) -> list[str]:
    """The repository's crates below a crate, each after those that it uses itself.

    >>> below("c", {"c": ["b", "a", "clap"], "b": ["a"], "a": []})
    ['a', 'b']
    """
    names: list[str] = []
    for used in uses[crate]:
        if used in uses:
            names += [name for name in [*below(used, uses), used] if name not in names]
    return names


def chains(crate: str, uses: dict[str, list[str]]) -> dict[str, int]:
    """The length of the longest chain of crates above each: the longer, the sooner it is proved.

    >>> chains("d", {"d": ["late", "c"], "c": ["b"], "b": ["a"], "late": ["a"], "a": []})
    {'d': 0, 'a': 3, 'late': 1, 'b': 2, 'c': 1}
    """
    lengths = dict.fromkeys([crate, *below(crate, uses)], 0)
    for name in [crate, *reversed(below(crate, uses))]:
        for used in uses[name]:
            if used in lengths:
                lengths[used] = max(lengths[used], lengths[name] + 1)
    return lengths


@dataclass(frozen=True)
class Crates:
    """The crates in a folder, as listed in its crates.txt."""

    top: Path
    uses: dict[str, list[str]]
    archives: set[str]

    @classmethod
    def read(cls, top: Path) -> Crates:
        return cls(top, *listed((top / "crates.txt").read_text(encoding="utf-8")))

    def folder(self, crate: str) -> Path:
        return self.top / "crates" / crate

    def own(self, crate: str) -> list[str]:
        """The repository's crates that a crate uses itself."""
        return [it for it in self.uses[crate] if it in self.uses]

    def is_program(self, crate: str) -> bool:
        return (self.folder(crate) / "src" / "main.rt").exists()

    def product(self, crate: str) -> str:
        """The name of a crate's product: a program, a static library, or a library for other crates."""
        if self.is_program(crate):
            return crate
        return f"lib{crate}.a" if crate in self.archives else f"{crate}.rlib"

    def sources(self, crate: str) -> list[Path]:
        """The source files and folders of a crate. Links are refused, as by `rt ci`: a change of their target would not be seen."""
        parts = [self.folder(crate) / part for part in ("src", "specs", "proofs")]
        files = sorted(file for part in parts if os.path.lexists(part) for file in [part, *part.rglob("*")])
        for file in files:
            if file.is_symlink():
                raise OSError(f"{file} is a link, and sources may not be links")
        return files

    def sum(self, crate: str) -> str:
        """A sum of the names of the crates that it uses and of its sources, with their names."""
        digest = hashlib.sha256(repr((self.uses[crate], crate in self.archives)).encode())
        for file in self.sources(crate):
            if file.is_file():
                digest.update(repr((str(file.relative_to(self.top)), file.read_bytes())).encode())
        return digest.hexdigest()
