"""What a report is about."""

from __future__ import annotations

import os.path
import re
from dataclasses import dataclass
from operator import sub
from typing import Any, Callable, Iterable, Iterator, NamedTuple, Sequence, TypeVar
from urllib.parse import quote

from ..catalogue.checking import Checked
from ..catalogue.store import Catalogue, Run
from ..fields.choosing import EVERYTHING, Choice
from ..fields.rules import Rule
from ..files.session import Session
from ..model.records import has_short, kind_of
from ..model.errors import WrongUse

LONGEST = 300  # characters of the name of a field that is counted


def shortened(text: str) -> str:
    """The beginning of a text that is too long for a list of counts."""
    return text if len(text) <= LONGEST else f"{text[:LONGEST]} .."


@dataclass
class About:
    """The arguments of a report: a catalogue, an older one, the chosen pictures, and whether their files are looked at."""

    catalogue: Catalogue
    old: Catalogue | None = None
    only: set[bytes] | None = None
    look: bool = True
    choice: Choice = EVERYTHING
    session: Session | None = None  # in which ExifTool is asked
    title: str = "Pictures and their metadata"
    link_to: str = ""  # where the names of pictures lead, with {path} in it; empty: to the files
    rules: Sequence[Rule] = ()
    beside: bytes = b""  # the folder in which the report will lie
    up: str = "./"  # leads from a page to that folder
    _table: str | None = None
    _checked: Checked | None = None

    def checked(self) -> Checked | None:
        """What breaks the rules, if there are any. The page and the objects need it."""
        if self.rules and not self._checked:
            self._checked = Checked(self.catalogue, self.rules, only=self.table())
        return self._checked

    def table(self) -> str | None:
        """The chosen paths as a temporary table."""
        if self.only is not None and self._table is None:
            self._table = self.catalogue.choose(self.only)
        return self._table


@dataclass(frozen=True)
class Refused:
    """A block that isn't accepted."""

    path: bytes
    kind: str
    name: str
    cause: str
    place: int | None

    @property
    def refusal(self) -> str:
        return self.cause if self.place is None else f"{self.cause} at {self.place}"


def unproved(runs: Sequence[Run]) -> list[str]:
    """The versions of libraries without proofs that made digests."""
    return sorted({it[2] for it in runs if it[2] and it[2].endswith("-unproved")})


def chosen(about: About) -> str:
    """Which rows of pictures a report is about, in SQL: those that were read."""
    return f"problem IS NULL AND path IN {about.table()}" if about.table() else "problem IS NULL"


def refused(about: About, by_cause: str = "") -> Iterator[Refused]:
    """Each block that isn't accepted, or those with one cause."""
    query = (
        "SELECT path, kind, name, ifnull(cause, status), place FROM blocks JOIN pictures ON pictures.id = picture"
        f" WHERE status != 'accepted' AND {chosen(about)}{' AND ifnull(cause, status) = ?' * bool(by_cause)} ORDER BY path, number"
    )
    yield from about.catalogue.rows(query, (by_cause,) * bool(by_cause), _refused_of_row)


def _refused_of_row(row: tuple[Any, ...]) -> Refused:
    path, kind, name, cause, place = row
    has_short(bytes, path)
    has_short(str, name, cause)
    return Refused(path, kind_of(kind), name, cause, place)


# The lists of a report as streams of entries, which are put on pages of a limited length.

PAGE = 200  # pictures of a page
ROWS = 5_000  # rows of its tables, unless one entry alone has more
CHARACTERS = 100_000  # of its texts, in the same way


Made = TypeVar("Made")


class Entry(NamedTuple):
    """Something that a list has: what its template shows, the pictures that it is about, and the texts by which the page is searched."""

    data: Any
    pictures: tuple[bytes, ...]
    words: Sequence[str | None] = ()
    rows: int = 1  # that it takes
    is_first: bool = True  # False: more pictures of what the entry before is about

    @property
    def size(self) -> int:
        """The characters of its texts and names."""
        return sum(len(it or "") for it in (*self.words, *self.pictures))


def _parted(items: Iterable[Made], costs_of: Callable[[Made], Sequence[int]], limits: Sequence[int]) -> Iterator[list[Made]]:
    """As many items at a time as all of their costs allow, or one."""
    part: list[Made] = []
    left = limits
    for item in items:
        costs = costs_of(item)
        left = list(map(sub, left, costs))
        if part and min(left) < 0:
            yield part
            part, left = [], list(map(sub, limits, costs))
        part.append(item)
    if part:
        yield part


def chunks(pictures: Iterable[Made], length_of: Callable[[Made], int]) -> Iterator[list[Made]]:
    """As many pictures at a time as a page has; fewer if their names and texts are long."""
    return _parted(pictures, lambda it: (1, length_of(it)), (PAGE, CHARACTERS))


def pages_of(entries: Iterable[Entry]) -> Iterator[list[Entry]]:
    """The entries of each page. An entry is on one page.

    >>> [len(it) for it in pages_of([Entry(0, (b"",) * 150), Entry(0, (b"",) * 50), Entry(0, (b"",))])]
    [2, 1]
    """
    return _parted(entries, lambda it: (max(1, len(it.pictures)), it.rows, it.size), (PAGE, ROWS, CHARACTERS))


# Where the name of a picture leads: to its file, or to a page about it on a server.

_SCHEME = re.compile(r"(https?|file)://", re.I)
PLACES = ("{path}", "{name}")  # in an address: the path below the folder that was indexed, and the name of the file alone


def check_address(address: str) -> str:
    """The same address. Raises `WrongUse`: an address such as `javascript:` is never a link."""
    if not _SCHEME.match(address):
        raise WrongUse(f"--link-to: an address begins with https://, http:// or file://, and {address} doesn't")
    if not any(place in address for place in PLACES):
        raise WrongUse(f"--link-to: {address} has neither {{path}} nor {{name}}, so all pictures would have one address")
    return address


def below(path: bytes, roots: Sequence[bytes]) -> bytes:
    """A picture's name, relative to the folder if there is only one.

    >>> below(b"/p/x/y", [b"/p"]), below(b"/p/x", [b"/p", b"/q"])
    (b'x/y', b'/p/x')
    """
    return path.removeprefix(os.path.join(roots[0], b"")) if len(roots) == 1 else path


@dataclass
class Links:
    """The addresses of pictures."""

    address: str  # empty: those of the files
    roots: Sequence[bytes]
    beside: bytes = b""  # the folder in which the report lies
    up: str = "./"  # leads from a page to that folder

    def of(self, path: bytes) -> str:
        """The address of a picture, in which each byte that isn't plain is escaped.

        >>> Links("", []).of(b"/p/a b\\xff?.jpg"), Links("https://dam.example/{path}", [b"/p"]).of(b"/p/x/y.jpg")
        ('file:///p/a%20b%FF%3F.jpg', 'https://dam.example/x/y.jpg')
        >>> Links("", [], b"/p/").of(b"/p/x/y:.jpg"), Links("", [], b"/p/", "../").of(b"/q/y.jpg")
        ('./x/y%3A.jpg', 'file:///q/y.jpg')
        """
        if not self.address:
            if self.beside and path.startswith(self.beside):  # they may be moved or sent together
                return self.up + quote(path[len(self.beside) :])
            return f"file://{quote(path)}"
        name = quote(below(path, self.roots).lstrip(b"/"))
        return self.address.replace("{path}", name).replace("{name}", quote(os.path.basename(path)))
