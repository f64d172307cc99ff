"""Wrong bodies of the crates' functions: their tables, what the compiler finds of them, and which ones have passed on this machine."""

from __future__ import annotations

import hashlib
import json
import os
import re
from dataclasses import asdict, dataclass, replace
from pathlib import Path
from typing import Any, List, Sequence

from crates import Crates, below
from planting import Misspelled, changed, with_sibling
from store import scripts_sum

HERE = Path(__file__).resolve().parent
Table = List[List["Body"]]  # groups, each for a copy of the crate
WROTE = re.compile(r"^wrote \./proofs/(\S+)/\w+\.antt$", re.M)  # with the goals that are left
PROVED = re.compile(r"^note: `\w+::(\S+)` needs no (?:other )?file", re.M)
HOLE = re.compile(r"^(?:pub )?(\S+)(?: \S+)* = \?$", re.M)  # the answer of a goal that is left


@dataclass(frozen=True)
class Body:
    """A wrong body, the function that must be refused then, and its goals that must not be proved.

    A body with a number is that of one more function, beside the one that is named. The number is in the other one's name. Without a number
    the function itself is changed. The control has a harmless change, or a harmless body. If clauses are named, the function that is beside
    ensures these alone.
    """

    why: str
    file: str
    function: str
    goals: Sequence[str]
    changes: Sequence[Sequence[str]] = ()
    body: str = ""
    control: str | Sequence[Sequence[str]] = ()
    clauses: Sequence[str] = ()
    number: int = 0

    @property
    def planted(self) -> str:
        """The path of the function that has the wrong body."""
        return f"{self.function}_{self.number}" if self.number else self.function

    def harmless(self) -> Body:
        """The control in place of the wrong body."""
        if isinstance(self.control, str):
            return replace(self, body=self.control, control="")
        return replace(self, changes=self.control, control=())

    def plant(self, folder: Path) -> None:
        """Changes the file in a copy of the crate. Of a proof by hand only the invariants of loops are kept, which a function with a changed
        body gets too."""
        path, proofs = folder / self.file, folder / "proofs"
        text = path.read_text(encoding="utf-8") if path.is_file() else ""
        old, new = (it.replace("::", "/") for it in (self.function, self.planted))
        if not self.number:
            path.write_text(changed(text, self.changes), encoding="utf-8")
            (proofs / old / "Answers.antt").unlink(missing_ok=True)
            return
        name = self.function.rpartition("::")[2]
        path.write_text(with_sibling(text, name, self.number, self.changes, self.body, self.clauses), encoding="utf-8")
        invariants = proofs / old / "Invariants.antt"
        if self.changes and invariants.is_file():
            (proofs / new).mkdir()
            given, other = (it.replace("/", ".") for it in (old, new))
            text = invariants.read_text(encoding="utf-8").replace(f".proofs.{given}.", f".proofs.{other}.")
            (proofs / new / "Invariants.antt").write_text(text, encoding="utf-8")


def body_of(entry: Any, number: int) -> Body:
    """A row of a table."""
    wanted = {"why", "file", "function", "goals", *({"body", "clauses"} & set(entry) if number else ()), *({"control"} & set(entry))}
    wanted |= set() if "body" in wanted else {"changes"}
    if set(entry) != wanted or not all(entry.values()):
        raise Misspelled(f"{entry} must have the members {sorted(wanted)}, none of them empty")
    return Body(**entry, number=number)


def read_table(path: Path) -> Table:
    """The groups of a table: the bodies of `beside` and `in place` are one, and each of `apart` is a group by itself."""
    table = json.loads(path.read_text(encoding="utf-8"))
    if not {"beside"} <= set(table) <= {"beside", "in place", "apart"} or not all(table.values()):
        raise Misspelled(f"{path.name} has other lists than beside, in place and apart, or an empty one")
    beside = [body_of(it, number) for number, it in enumerate(table["beside"], 1)]
    in_place, apart = ([body_of(it, 0) for it in table.get(name, ())] for name in ("in place", "apart"))
    return [[*beside, *in_place], *([it] for it in apart)]


@dataclass(frozen=True)
class Verdict:
    """What the search found of the planted functions: the goals of each that it did not prove, and the functions that it proved."""

    left: dict[str, set[str]]
    proved: set[str]

    @classmethod
    def read(cls, text: str, folder: Path) -> Verdict:
        """Reads what the compiler printed, and the files that it wrote in a copy of the crate."""
        left = {}
        for name in WROTE.findall(text):
            files = [it.read_text(encoding="utf-8") for it in (folder / "proofs" / name).glob("*.antt")]
            left[name.replace("/", "::")] = {goal for it in files for goal in HOLE.findall(it)}
        return cls(left, {*PROVED.findall(text)})

    def fault(self, body: Body) -> str:
        """What is wrong with the verdict on a wrong body; nothing if it is refused for the reason that its table has."""
        if body.planted in self.proved:
            return f"{body.planted} is not refused"
        found = self.left.get(body.planted, set())
        return "" if found == {*body.goals} else f"the goals of {body.planted} that are not proved are {sorted(found)}"

    def control_fault(self, body: Body) -> str:
        """What is wrong with the verdict on a control, which must be proved."""
        if body.planted in self.proved:
            return ""
        return f"the control of {body.planted} is not proved: {sorted(self.left.get(body.planted, ()))}"

    def is_right(self, group: Sequence[Body], controls: bool = False) -> bool:
        return not any(map(self.control_fault if controls else self.fault, group))


class Passed:
    """Notes of the groups that have passed on this machine, each with a sum of all that decides about it."""

    def __init__(self, folder: Path, crates: Crates, version: str) -> None:
        self.folder, self.crates, self.version = folder, crates, version
        self.scripts = [
            scripts_sum(),
            *(it.read_text(encoding="utf-8") for it in (HERE / "bodies.py", HERE / "planting.py", HERE / "prover.py")),
        ]

    def sum(self, crate: str, group: Sequence[Body]) -> str:
        """A sum of the toolchain's version, the scripts, the sources of the crate and of those below it, and the group."""
        sources = [self.crates.sum(it) for it in [*below(crate, self.crates.uses), crate]]
        return hashlib.sha256(repr((self.version, self.scripts, sources, [asdict(it) for it in group])).encode()).hexdigest()

    def has(self, name: str, found: str) -> bool:
        """Whether a group has passed with this sum."""
        note = self.folder / name
        return note.is_file() and note.read_text(encoding="ascii", errors="replace") == found

    def add(self, name: str, found: str) -> None:
        self.folder.mkdir(parents=True, exist_ok=True)
        note = self.folder / f"{name}.{os.getpid()}"
        note.write_text(found, encoding="ascii")
        os.replace(note, self.folder / name)
