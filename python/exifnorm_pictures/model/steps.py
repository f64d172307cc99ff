"""The steps of a repair as a catalogue keeps them, and their words for people. See `repairs`, which finds them."""

from __future__ import annotations

from collections import Counter

from exifnorm._hints import NamedTuple, Sequence

from .errors import Damaged


class Step(NamedTuple):
    """One step: the fault, what was done, and what is lost by it (nothing: the block says the same as before)."""

    cause: str
    what: str
    loses: str = ""
    where: str = ""  # the directory of which fields are lost, such as `gps`, or the lost field, such as `main 010f`


Steps = tuple[Step, ...]


def loses(steps: Sequence[Step]) -> list[str]:
    """What some steps lose."""
    return list(dict.fromkeys(it.loses for it in steps if it.loses))


# The directories that are found by an entry of another one
_BELOW = {"main": ("exif", "gps", "interop", "thumb"), "exif": ("interop",)}


def lost_fields(steps: Sequence[Step]) -> frozenset[str]:
    """The fields that some steps lose, and the directories of which they lose fields that nobody knows, with those that only they lead to.

    >>> sorted(lost_fields([Step("DirectoryOutside", "dropped", "a directory", "exif"), Step("ValueOutside", "left out", "a value", "main 010f")]))
    ['exif', 'interop', 'main 010f']
    """
    lost = {it.where for it in steps if it.where}
    return frozenset(lost.union(*(_BELOW.get(it, ()) for it in lost)))


def words(steps: Sequence[Step]) -> str:
    """Some steps for people: `entries sorted, the missing end of a directory added`."""
    counts = Counter(step.what for step in steps)
    return ", ".join(what + f" ({count} times)" * (count > 1) for what, count in counts.items())


def packed(steps: Sequence[Step]) -> str:
    """Some steps as a text for the catalogue."""
    import json  # which takes long, and few pictures need

    return json.dumps([list(it) for it in steps])


def unpacked(text: str | None) -> Steps:
    """The steps from the result of `packed`. Raises `Damaged`, since a catalogue may be damaged or a stranger's.

    >>> unpacked(packed([Step("Doubled", "left out")]))
    (Step(cause='Doubled', what='left out', loses='', where=''),)
    """
    if not text:
        return ()
    import json

    try:
        rows = json.loads(text)
        if not isinstance(rows, list) or not all(isinstance(it, list) and all(isinstance(one, str) for one in it) for it in rows):
            raise Damaged("the steps of a repair are something else")
        return tuple(Step(*it) for it in rows)
    except (ValueError, TypeError, RecursionError) as error:
        raise Damaged(f"the steps of a repair can't be read: {error}") from error
