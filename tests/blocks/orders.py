"""The orders in which the DataSets of an IIM block may come: for each DataSet its record and DataSet number. The same in every run."""

from random import Random
from typing import Iterable, List, Tuple

from meanings import GROUP_OF, Record

Names = Iterable[Tuple[int, int]]
ALL = 65_536  # all pairs of a record and a DataSet number; the groups that have two of them change nothing here


def name(number: int) -> Tuple[int, int]:
    """The pair with this number, in ascending order.

    >>> name(0x0278)
    (2, 120)
    """
    return divmod(number % ALL, 256)


def in_turn(count: int, names: int = ALL) -> Names:
    """Each name in turn, and then from the first one again.

    >>> list(in_turn(3, 2))
    [(0, 0), (0, 1), (0, 0)]
    """
    return (name(i % names) for i in range(count))


def descending(count: int) -> Names:
    """Each name once, in descending order.

    >>> list(descending(2))
    [(255, 255), (255, 254)]
    """
    return (name(-1 - i) for i in range(count))


def shuffled() -> Names:
    """Each name once, in random order."""
    return map(name, Random(3).sample(range(ALL), ALL))


def random(count: int, seed: int = 4) -> Names:
    """Random names, some of which are the same."""
    return map(name, Random(seed).choices(range(ALL), k=count))


def ascending(count: int) -> Names:
    """As many of each name, by ascending groups.

    >>> list(ascending(4 * ALL))[3:5]
    [(0, 0), (0, 1)]
    >>> list(ascending(ALL))[2 * 256 + 45 : 2 * 256 + 49]
    [(2, 45), (2, 47), (2, 50), (2, 46)]
    """
    names = sorted(map(name, range(ALL)), key=lambda it: GROUP_OF.get(it, it))
    return (names[i * ALL // count] for i in range(count))


def record(names: Names, data: bytes = b"") -> Record:
    """A record with DataSets of these names, which all have the same data."""
    return Record([(*it, data) for it in names])


def captions() -> Record:
    """25 DataSets of 13 groups, in the order in which a picture's editor writes them."""
    texts: List[Tuple[int, bytes]] = [
        (0, b"\0\4"),
        (120, b"A vase of the second century, found in 1998"),
        (80, b"Lee"),
        (85, b"Staff"),
        (110, b"The Museum"),
        (5, b"Vase"),
        (55, b"20090708"),
        (90, b"Zurich"),
        (101, b"Switzerland"),
        *((25, b"keyword %d" % it) for it in range(13)),
        (116, b"The Museum, 2009"),
        (103, b"1998.7"),
    ]
    return Record([(1, 90, b"\x1b%G"), *((2, number, text) for number, text in texts)])
