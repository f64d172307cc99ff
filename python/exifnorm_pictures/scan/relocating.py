"""`relocate`: a catalogue whose pictures are elsewhere now, as on another mount or machine. No picture is read."""

from __future__ import annotations

import time
from collections import Counter
from itertools import islice
from typing import Iterator

from ..catalogue.store import Catalogue
from ..extract.sidecars import marks_elsewhere
from ..model.problems import GONE
from ..model.records import RACY, Row, Stamp, has

AS_BEFORE, CHANGED, ABSENT = "as before", "changed", "absent"
COARSE = 2_000_000_000  # nanoseconds in which a file may be changed again without other times, on the coarsest file system
_AT_ONCE = 1000  # rows

_UPDATE = "UPDATE OR REPLACE pictures SET path = ?, root = ?, changed = ?, inode = ?, device = ?, sidecars = ? WHERE id = ?"


def relocated(catalogue: Catalogue, old: bytes, new: bytes) -> "Counter[str]":
    """Gives the pictures below a folder the same names below another one, where their files are now; they replace pictures with these names.

    A file with the same size and modification time, and with the same sidecars, is as before, and gets the marks that it has there, such as its
    inode: the next `index` doesn't read it. One that has changed or is absent is left to the next `index`. Returns how many there are of each, without those that were gone before.
    """
    counts: "Counter[str]" = Counter()
    began = time.time_ns()
    with catalogue.transaction():
        start = old.rstrip(b"/") + b"/"
        catalogue.base.execute(
            "CREATE TEMP TABLE moving AS SELECT id, path, root, sidecars, problem, size, modified, changed, inode, device FROM pictures"
            " WHERE path > ? AND path < ? ORDER BY path",
            (start, start[:-1] + b"0"),
        )
        rows = _rows(catalogue, old.rstrip(b"/"), new.rstrip(b"/"), began, counts)
        while rows_at_once := list(islice(rows, _AT_ONCE)):
            catalogue.base.executemany(_UPDATE, rows_at_once)
        catalogue.base.execute("DROP TABLE temp.moving")
    return counts


def _rows(catalogue: Catalogue, old: bytes, new: bytes, began: int, counts: "Counter[str]") -> Iterator[Row]:
    """The values of `_UPDATE` for each picture."""
    for number, path, root, sidecars, problem, *marks in catalogue.rows("SELECT * FROM temp.moving"):
        has(bytes, path, root)
        has(str, sidecars)
        place = new + path[len(old) :]
        state, stamp = _looked_at(place, marks, began)
        if state == AS_BEFORE and sidecars:
            now = marks_elsewhere(place, sidecars, lambda *times: began - max(times) < COARSE)
            state, sidecars = (AS_BEFORE, now) if now is not None else (CHANGED, sidecars)
        if problem not in GONE:
            counts[state] += 1
        yield place, _root(root, old, new), *stamp, sidecars, number


def _root(root: bytes, old: bytes, new: bytes) -> bytes:
    """The folder that was indexed, which may lie below the old one, or above it."""
    if root == old or root.startswith(old + b"/"):
        return new + root[len(old) :]
    return root if new.startswith(root.rstrip(b"/") + b"/") else new


def _looked_at(place: bytes, marks: list[int], began: int) -> tuple[str, tuple[int, int, int]]:
    """Whether a file is as before, and the time of its last change of status, its inode and its device."""
    size, modified, *others = marks
    now = Stamp.at(place)
    if not now:
        return ABSENT, (others[0], others[1], others[2])
    if (now.size, now.modified) != (size, modified):
        return CHANGED, (others[0], others[1], others[2])
    is_fresh = began - max(now.modified, now.changed) < COARSE
    return AS_BEFORE, (RACY if is_fresh else now.changed, now.inode, now.device)
