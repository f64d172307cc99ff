"""Words that had another spelling before, which programs may still compare with; and the words of members in help()."""

from __future__ import annotations

import warnings

TYPE_CHECKING = False  # that of `typing`, which takes long to import
if TYPE_CHECKING:
    from typing import Literal, Tuple, Type, TypeVar

    T = TypeVar("T")


class Word(str):
    """A word that is also equal to its older spelling, with a DeprecationWarning. Its hash is that of the new one.

    >>> word = Word("iptc", "iim")
    >>> word == "iptc", word == "exif", {"iptc": 1}[word]
    (True, False, 1)
    """

    old: str

    def __new__(cls, word: str, old: str) -> "Word":
        text = super().__new__(cls, word)
        text.old = old
        return text

    def __eq__(self, other: object) -> bool:
        if type(other) is str and other == self.old:
            warnings.warn(f"{self.old!r} is {str(self)!r} now", DeprecationWarning, stacklevel=2)
            return True
        return str.__eq__(self, other)

    def __ne__(self, other: object) -> bool:
        return not self == other

    __hash__ = str.__hash__

    def __reduce__(self) -> Tuple[Type["Word"], Tuple[str, str]]:
        return Word, (str(self), self.old)


def documented(of: Type[T]) -> Type[T]:
    """A class of named tuples, in which help() has words for each member: those after "- `member`: " in the class's own words.

    >>> from typing import NamedTuple
    >>> class Place(NamedTuple):
    ...     '''A place.
    ...
    ...     - `start`: the offset
    ...     '''
    ...     start: int
    >>> documented(Place).start.__doc__
    'the offset'
    """
    lines = "\n".join(map(str.strip, (of.__doc__ or "").splitlines()))
    for part in lines.split("\n- `")[1:]:
        name, _, words = part.partition("`: ")
        getattr(of, name).__doc__ = words.partition("\n\n")[0].strip().replace("\n", " ")
    return of


EXIF: Literal["exif"] = "exif"
IPTC: Literal["iptc"] = Word("iptc", "iim")  # type: ignore[assignment]  # the kind of a block
DATASETS: Literal["iptc"] = Word("iptc", "record")  # type: ignore[assignment]  # the directory of a DataSet
