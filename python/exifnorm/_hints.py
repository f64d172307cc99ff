"""Names for annotations, as those of `typing`, without importing it: that takes longer than the work of a short command.

Nothing looks at an annotation at run time, and of an alias or a base nobody looks at what is in its brackets.

    >>> tuple[Optional[int], ...] == tuple[Any, ...]
    True
"""

from __future__ import annotations

from collections.abc import Callable, Collection, Iterable, Iterator, Mapping, Sequence

from ._named import NamedTuple

__all__ = [
    "Annotated",
    "Any",
    "BinaryIO",
    "Callable",
    "ClassVar",
    "Collection",
    "Dict",
    "Generic",
    "IO",
    "Iterable",
    "Iterator",
    "List",
    "Literal",
    "Mapping",
    "NamedTuple",
    "NoReturn",
    "Optional",
    "Protocol",
    "Sequence",
    "Set",
    "TYPE_CHECKING",
    "Tuple",
    "TypeVar",
    "Union",
    "cast",
]

TYPE_CHECKING = False  # a type checker takes it for True
if TYPE_CHECKING:
    from typing import IO, Annotated, Any, BinaryIO, ClassVar, Dict, Generic, List, Literal, NoReturn, Optional, Protocol, Set, Tuple
    from typing import TypeVar, Union, cast
else:

    class Any:
        """Any of these names, with or without brackets."""

        def __class_getitem__(cls, inside):
            return cls

    Annotated = BinaryIO = ClassVar = Generic = IO = Literal = NoReturn = Optional = Protocol = Union = Any
    Dict, List, Set, Tuple = dict, list, set, tuple

    def TypeVar(name, *kinds, bound=None):
        """A name for types."""
        return Any

    def cast(kind, value):
        """The value."""
        return value
